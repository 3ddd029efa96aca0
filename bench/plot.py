#!/usr/bin/env python3
"""Draws what kangaroo-bench, rivals and measure_server.py measured, as an SVG (or a PNG, by the name's end). It needs matplotlib.

usage: plot.py KIND OUT.svg FILE..       FILE may be LABEL=FILE; without a label it is the file's name

KIND                   FILE..
hit-ratio-over-time    series: kangaroo-bench --series. By tier if there is one file
hit-ratio-by-memory    reports: kangaroo-bench --json, rivals --json. At fixed flash: a line for each design
write-amplification    reports, at several thresholds and admissions, or a table of points (design, setting, written, hit_ratio):
                       bytes written to flash against hit ratio
latency                reports: gets and puts by percentile
gets-by-threads        reports at several --threads, or a table (keys, threads, gets_per_second): a line for each label
server-bars            a table (connections, in_flight, server, and the lowest and highest of hit_ratio, gets_per_second and p99_us):
                       bars for each server, with their spread

A table is a CSV file, as docs/benchmarks has them. Figures are those after the warm-up. Reports of one label, or without labels
all, are one line. Status 2: bad words or files; 3: matplotlib is not there.
"""
import csv
import json
import os
import sys

STATUS_BAD_WORDS, STATUS_REFUSED = 2, 3
DESIGNS = {"kangaroo": "this cache", "set-associative": "set-associative (simulated)", "log-structured": "log-structured (simulated)"}
COLOURS = ("#1b6ca8", "#d1495b", "#3c8d53", "#8a5a9e", "#c98a1b", "#4f5d75", "#2a9d8f", "#7a4419")
MARKS = "osD^vP*X"
STROKES = ("-", "--", ":", "-.")


def refuse(status, line):
    sys.stderr.write(f"plot.py: {line}\n")
    sys.exit(status)


try:
    import matplotlib
    matplotlib.use("Agg")
    from matplotlib import pyplot, ticker
    matplotlib.rcParams.update({"font.size": 10, "axes.grid": True, "grid.alpha": 0.3, "axes.spines.top": False,
                                "axes.spines.right": False, "svg.hashsalt": "kangaroo", "legend.frameon": False})
    MISSING = None
except ImportError as cause:
    MISSING = str(cause)


# ------------------------------------------------------------------------------------------------------------ files

def labelled(word):
    """Label and path of a word; the label is None if it has none."""
    if "=" in word and not os.path.exists(word):
        label, path = word.split("=", 1)
        return label, path
    return None, word


def read_reports(words):
    """Reports of kangaroo-bench as they are, and a report for each design of one of rivals; each with its label."""
    reports = []
    for word in words:
        label, path = labelled(word)
        try:
            with open(path) as file:
                report = json.load(file)
            if report["program"] == "rivals":
                for design in report["designs"]:
                    reports.append({**report, **design, "label": label, "path": path})
            else:
                reports.append({"design": "kangaroo", "memory_for_index": 0, **report, "label": label, "path": path})
        except OSError as cause:
            refuse(STATUS_BAD_WORDS, f"{path}: {cause.strerror}")
        except (ValueError, KeyError, TypeError):
            refuse(STATUS_BAD_WORDS, f"{path} is no report: give what kangaroo-bench or rivals printed with --json")
    return reports


def read_series(words):
    series = []
    for word in words:
        label, path = labelled(word)
        try:
            with open(path, newline="") as file:
                rows = list(csv.DictReader(file))
            seconds = [float(row["seconds"]) for row in rows]
            ratios = {name: [float(row[name] or "nan") for row in rows]
                      for name in ("hit_ratio", "memory_ratio", "log_ratio", "set_ratio", "server_ratio")}
            warm = [second for second, row in zip(seconds, rows) if row["phase"] == "warmup"]
        except OSError as cause:
            refuse(STATUS_BAD_WORDS, f"{path}: {cause.strerror}")
        except (ValueError, KeyError, TypeError):
            refuse(STATUS_BAD_WORDS, f"{path} is no series: give a file that kangaroo-bench --series wrote")
        if not rows:
            refuse(STATUS_BAD_WORDS, f"{path} has no seconds: the run was shorter than one")
        series.append((label or os.path.splitext(os.path.basename(path))[0], seconds, ratios, warm[-1] if warm else None))
    return series


def read_table(words, columns):
    """Rows of CSV files that have these columns; a cell is a number if it can be one."""
    rows = []
    for word in words:
        try:
            with open(word, newline="") as file:
                rows += [{name: number_or_text(row[name]) for name in columns} for row in csv.DictReader(file)]
        except OSError as cause:
            refuse(STATUS_BAD_WORDS, f"{word}: {cause.strerror}")
        except (KeyError, TypeError):
            refuse(STATUS_BAD_WORDS, f"{word} lacks a column: it needs {', '.join(columns)}")
    return rows


def number_or_text(text):
    try:
        return float(text)
    except ValueError:
        return text


def are_tables(words):
    return all(word.endswith(".csv") for word in words)


def of_cache(reports, kind):
    """Reports that have options of a cache: those of a server say nothing of flash and memory."""
    kept = [report for report in reports if "options" in report]
    if not kept:
        refuse(STATUS_BAD_WORDS, f"{kind} wants reports of a cache: a server's have no options")
    return kept


def design_label(report):
    name = DESIGNS[report["design"]]
    return f"{name}, {report['label']}" if report["label"] else name


def grouped(reports, label):
    groups = {}
    for report in reports:
        groups.setdefault(label(report), []).append(report)
    return groups


# ------------------------------------------------------------------------------------------------------------ drawing

def spelled_bytes(count):
    for unit, size in (("TiB", 1 << 40), ("GiB", 1 << 30), ("MiB", 1 << 20), ("KiB", 1 << 10)):
        if count >= size:
            return f"{count / size:.4g} {unit}"
    return f"{count:.0f} bytes"


def of_load(report):
    """The load in a line."""
    load = report["load"]
    drawn = f"replay of {os.path.basename(load['replay'])}" if "replay" in load else f"{load['keys']:,} keys, {load['distribution']}"
    return f"{drawn}, values {load['sizes']}, {'look-aside' if load['pattern'] == 'lookaside' else 'plain'}"


def new_plot(title, across, up, below=None):
    figure, axes = pyplot.subplots(figsize=(7.6, 4.8), layout="constrained")
    axes.set_title(title if below is None else f"{title}\n{below}", fontsize=11, loc="left")
    axes.set_xlabel(across)
    axes.set_ylabel(up)
    return figure, axes


def save(figure, path):
    try:
        figure.savefig(path, dpi=110, bbox_inches="tight", metadata={"Date": None} if path.endswith(".svg") else None)
    except (OSError, ValueError) as cause:
        refuse(STATUS_BAD_WORDS, f"{path}: {cause}")


def draw_hit_ratio_over_time(words):
    series = read_series(words)
    figure, axes = new_plot("Hit ratio of gets over time", "seconds since the run began", "hit ratio in each second")
    tiers = (("hit_ratio", "all hits"), ("memory_ratio", "in memory"), ("log_ratio", "in the log"), ("set_ratio", "in a set"))
    if len(series) == 1 and not any(series[0][2]["server_ratio"]):
        label, seconds, ratios, warm = series[0]
        for (name, text), colour, mark in zip(tiers, COLOURS, MARKS):
            axes.plot(seconds, ratios[name], color=colour, marker=mark, markersize=3, label=text)
    else:
        for (label, seconds, ratios, warm), colour, mark in zip(series, COLOURS * 9, MARKS * 9):
            axes.plot(seconds, ratios["hit_ratio"], color=colour, marker=mark, markersize=3, label=label)
    if warm is not None:
        axes.axvline(warm, color="#888888", linestyle="--", linewidth=1, label="end of the warm-up")
    axes.set_ylim(0, 1)
    axes.set_xlim(left=0)
    axes.legend(loc="upper left", bbox_to_anchor=(1.01, 1))
    return figure


def draw_hit_ratio_by_memory(words):
    reports = of_cache(read_reports(words), "hit-ratio-by-memory")
    flash = {report["options"]["flash_bytes"] for report in reports}
    if len(flash) > 1:
        refuse(STATUS_BAD_WORDS, f"hit-ratio-by-memory wants one size of flash, and these have {', '.join(map(spelled_bytes, sorted(flash)))}")
    figure, axes = new_plot(f"Hit ratio by memory, {spelled_bytes(flash.pop())} of flash", "memory, index included", "hit ratio after the warm-up",
                            of_load(reports[0]))
    memories = sorted({report["options"]["memory_bytes"] for report in reports})
    for place, (label, group) in enumerate(grouped(reports, design_label).items()):
        points = sorted((report["options"]["memory_bytes"], report["measured"]["hit_ratio"]) for report in group)
        axes.plot(*zip(*points), color=COLOURS[place % len(COLOURS)], marker=MARKS[place % len(MARKS)], label=label,
                  linestyle=STROKES[place % len(STROKES)], markersize=9 - 2 * min(place, 3), fillstyle="none" if place == 0 else "full")
    if len(memories) > 1:
        axes.set_xscale("log", base=2)
    axes.set_xticks(memories, [spelled_bytes(memory) for memory in memories], minor=False)
    axes.xaxis.set_minor_locator(ticker.NullLocator())
    axes.legend(loc="best")
    return figure


def setting_of(report):
    """How a report of this cache differs from the others: threshold and admission."""
    threshold, admitted = report["options"].get("threshold"), report["options"].get("admit_percent", 100)
    if not threshold:
        return ""
    return f"threshold {threshold}" + (f", admitting {admitted:.3g} %" if admitted != 100 else "")


def points_of_writing(words):
    """Design, setting, bytes written for each byte stored, and hit ratio of each point; and a line about the load."""
    if are_tables(words):
        rows = read_table(words, ("design", "setting", "written", "hit_ratio"))
        return [tuple(row.values()) for row in rows], None
    reports = of_cache(read_reports(words), "write-amplification")
    points = [(design_label(it), setting_of(it), it["measured"]["write_amplification"], it["measured"]["hit_ratio"]) for it in reports]
    return points, of_load(reports[0])


def draw_write_amplification(words):
    points, load = points_of_writing(words)
    figure, axes = new_plot("Bytes written to flash by hit ratio", "bytes written to flash for each byte stored", "hit ratio after the warm-up", load)
    for (label, group), colour, mark in zip(grouped(points, lambda it: it[0]).items(), COLOURS * 9, MARKS * 9):
        across, up = [it[2] for it in group], [it[3] for it in group]
        axes.scatter(across, up, color=colour, marker=mark, s=45, label=label, zorder=3)
        for _, setting, written, hits in group:
            # to the right of its point, or above it if another point is there
            is_taken = any(0 < it[2] - written < 5 and abs(it[3] - hits) < 0.003 for it in group)
            offset, where = ((0, 9), "center") if is_taken else ((8, -3), "left")
            axes.annotate(setting, (written, hits), xytext=offset, textcoords="offset points", fontsize=8, ha=where)
    axes.set_xlim(left=0)
    axes.margins(x=0.08, y=0.15)
    axes.legend(loc="upper right")
    return figure


def draw_latency(words):
    reports = [report for report in read_reports(words) if report["design"] == "kangaroo"]
    if not reports:
        refuse(STATUS_BAD_WORDS, "latency wants reports of kangaroo-bench: rivals measures no time")
    names = ("get", "get_memory", "get_log", "get_set", "get_server", "get_miss", "put", "fill", "removal") if len(reports) == 1 else ("get",)
    texts = {"get": "all gets", "get_memory": "get, in memory", "get_log": "get, in the log", "get_set": "get, in a set", "get_server": "get, a hit",
             "get_miss": "get, a miss", "put": "put", "fill": "fill after a miss", "removal": "removal"}
    figure, axes = new_plot("Latency by percentile", "percentile of calls", "microseconds", of_load(reports[0]))
    lines = [(report, name) for report in reports for name in names if name in report["measured"]["latency_ns"]]
    least = 1.0
    for (report, name), colour in zip(lines, COLOURS * 9):
        curve = [(100 - percent, value / 1000) for percent, value in report["measured"]["latency_ns"][name]["curve"] if percent < 100]
        label = texts[name] if len(reports) == 1 else report["label"] or os.path.basename(report["path"])
        axes.plot(*zip(*curve), color=colour, label=label, linewidth=2.2 if name == "get" else 1.3)
        least = min(least, curve[-1][0])
    axes.set_xscale("log")
    axes.set_yscale("log")
    axes.set_xlim(100, least * 0.8)
    ticks = [tick for tick in (100, 50, 10, 1, 0.1, 0.01, 0.001, 0.0001, 0.00001) if tick >= least]
    axes.set_xticks(ticks, [f"{100 - tick:.8g}" for tick in ticks])
    axes.xaxis.set_minor_locator(ticker.NullLocator())
    axes.yaxis.set_major_formatter(ticker.FormatStrFormatter("%g"))
    axes.legend(loc="upper left", bbox_to_anchor=(1.01, 1))
    return figure


def points_of_threads(words):
    """The points of each line, as threads and gets per second; and a line about the load."""
    lines = {}
    if are_tables(words):
        for row in read_table(words, ("keys", "threads", "gets_per_second")):
            lines.setdefault(row["keys"], []).append((row["threads"], row["gets_per_second"]))
        return lines, None
    reports = [report for report in read_reports(words) if report["design"] == "kangaroo"]
    if not reports:
        refuse(STATUS_BAD_WORDS, "gets-by-threads wants reports of kangaroo-bench: rivals measures no time")
    for it in reports:
        label = it["label"] or ("this cache" if it["target"] == "cache" else f"server, {it['pipeline']} in flight")
        lines.setdefault(label, []).append((it["load"]["threads"], it["measured"]["operations_per_second"]))
    return lines, None if len(lines) > 1 else of_load(reports[0])


def draw_gets_by_threads(words):
    lines, load = points_of_threads(words)
    figure, axes = new_plot("Gets per second by threads", "threads that call", "millions of gets per second", load)
    for (label, points), colour, mark in zip(lines.items(), COLOURS * 9, MARKS * 9):
        axes.plot(*zip(*sorted((threads, gets / 1e6) for threads, gets in points)), color=colour, marker=mark, label=label)
    axes.set_xticks(sorted({int(threads) for points in lines.values() for threads, _ in points}))
    axes.set_ylim(bottom=0)
    axes.legend(loc="best")
    return figure


BARS = (("hit_ratio", "hit ratio", 1), ("gets_per_second", "thousands of gets per second", 1e3), ("p99_us", "p99, microseconds", 1))


def draw_server_bars(words):
    names = [f"{name}_{end}" for name, _, _ in BARS for end in ("lowest", "highest")]
    rows = read_table(words, ("connections", "in_flight", "server", *names))
    if not rows:
        refuse(STATUS_BAD_WORDS, "server-bars wants a table with rows")
    servers = grouped(rows, lambda it: it["server"])
    figure, all_axes = pyplot.subplots(1, len(BARS), figsize=(11.4, 4.2), layout="constrained")
    for axes, (name, text, unit) in zip(all_axes, BARS):
        for place, ((server, group), colour) in enumerate(zip(servers.items(), COLOURS)):
            lows, highs = [it[f"{name}_lowest"] / unit for it in group], [it[f"{name}_highest"] / unit for it in group]
            middles = [(low + high) / 2 for low, high in zip(lows, highs)]
            spread = [[middle - low for middle, low in zip(middles, lows)], [high - middle for middle, high in zip(middles, highs)]]
            at = [group_at + (place - 1) * 0.27 for group_at in range(len(group))]
            axes.bar(at, middles, 0.25, yerr=spread, capsize=3, color=colour, label=server, error_kw={"linewidth": 1.1})
        loads = [f"{it['connections']:.0f}, {it['in_flight']:.0f}" for it in next(iter(servers.values()))]
        axes.set_xticks(range(len(loads)), loads)
        axes.set_title(text, fontsize=11, loc="left")
        axes.set_xlabel("connections, requests in flight on each")
        axes.grid(axis="x", visible=False)
    figure.legend(*all_axes[0].get_legend_handles_labels(), loc="lower center", ncols=3, bbox_to_anchor=(0.5, 1.0))
    return figure


KINDS = {"hit-ratio-over-time": draw_hit_ratio_over_time, "hit-ratio-by-memory": draw_hit_ratio_by_memory,
         "write-amplification": draw_write_amplification, "latency": draw_latency, "gets-by-threads": draw_gets_by_threads,
         "server-bars": draw_server_bars}


def main():
    if len(sys.argv) == 2 and sys.argv[1] in ("--help", "-h"):
        print(__doc__.strip())
        return 0
    if len(sys.argv) < 4:
        refuse(STATUS_BAD_WORDS, "usage: plot.py KIND OUT.svg FILE.. (--help says more)")
    if sys.argv[1] not in KINDS:
        refuse(STATUS_BAD_WORDS, f"{sys.argv[1]} is no kind of plot: {', '.join(KINDS)}")
    if MISSING is not None:
        refuse(STATUS_REFUSED, f"it needs matplotlib ({MISSING}): with Debian apt-get install python3-matplotlib, and run it by /usr/bin/python3")
    save(KINDS[sys.argv[1]](sys.argv[3:]), sys.argv[2])
    return 0


if __name__ == "__main__":
    sys.exit(main())
