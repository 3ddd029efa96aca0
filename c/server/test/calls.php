<?php
// calls.php HOST PORT [binary]: php-memcached makes each call of its text protocol, or a few of its binary one. A line "ok NAME" or
// "not ok NAME" for each; suites runs it.
function tell($is_so, $name) { echo $is_so ? "ok" : "not ok", " $name\n"; }

function connect($host, $port, $is_binary, $options = []) {
    $it = new Memcached();
    $it->setOption(Memcached::OPT_BINARY_PROTOCOL, $is_binary);
    foreach ($options as $option => $value) $it->setOption($option, $value);
    $it->addServer($host, $port);
    return $it;
}

function stores($m) {
    tell($m->set("a", "1") && $m->get("a") === "1", "set and get");
    tell($m->get("absent") === false && $m->getResultCode() === Memcached::RES_NOTFOUND, "get of an absent key");
    tell(!$m->add("a", "2") && $m->add("b", "2"), "add");
    tell($m->replace("b", "3") && !$m->replace("absent", "3"), "replace");
    tell($m->set("list", [1, "two", ["three" => 3.5]]) && $m->get("list") === [1, "two", ["three" => 3.5]], "an array");
    tell($m->set("flag", true) && $m->get("flag") === true && $m->set("n", 7) && $m->get("n") === 7, "a bool and a number");
    tell($m->set("packed", str_repeat("abc", 5000)) && $m->get("packed") === str_repeat("abc", 5000), "a text of 15,000 bytes that is compressed");
    tell($m->set("2000", str_repeat("x", 50) . random_bytes(1900)) && strlen($m->get("2000")) === 1950, "a text of 1,950 bytes");
    tell($m->set("5000", random_bytes(5000)) && strlen($m->get("5000")) === 5000, "a text of 5,000 random bytes");
    tell($m->set("", "x") === false && $m->set(str_repeat("k", 251), "x") === false, "keys that are none");
}

function changes($m) {
    $m->set("count", 10);
    tell($m->increment("count", 5) === 15 && $m->decrement("count", 3) === 12 && $m->increment("absent") === false, "increment, decrement");
    tell($m->touch("count", 100) && !$m->touch("absent", 100), "touch");
    tell($m->delete("count") && !$m->delete("count"), "delete");
    $got = $m->get("a", null, Memcached::GET_EXTENDED);
    tell($m->cas($got["cas"], "a", "5") && !$m->cas($got["cas"], "a", "6") && $m->get("a") === "5", "cas");
    $many = [];
    for ($i = 0; $i < 300; $i++) $many["many$i"] = "value $i";
    tell($m->setMulti($many) && $m->getMulti(array_keys($many)) == $many, "setMulti, getMulti");
    tell(count(array_filter($m->deleteMulti(["many0", "many1", "absent"]), fn($it) => $it === true)) === 2, "deleteMulti");
    $m->getDelayed(["many2", "many3"], true);
    tell(count($m->fetchAll()) === 2, "getDelayed, fetchAll");
    $stats = $m->getStats();
    tell(reset($stats)["curr_connections"] > 0 && preg_match('/^1\.\d+\.\d+/', reset($stats)["version"]), "getStats, getVersion");
}

function expiries($m) {
    foreach ([-1, 2147483647, 2147483648, 4000000000, PHP_INT_MAX] as $expiry) {
        $m->set("victim", "other's");
        $m->set("mine", "x\r\nget victim", $expiry);
        $m->set("own", "my own");
        tell($m->get("own") === "my own" && in_array($m->get("mine"), [false, "x\r\nget victim"], true), "what follows a set with expiry $expiry");
    }
    tell($m->set("late", "x", time() + 1000) && $m->get("late") === "x", "a moment that is to come");
    tell($m->set("past", "x", time() - 1000) && $m->get("past") === false, "a moment that is over");
    tell($m->set("soon", "x", 1) && $m->get("soon") === "x" && sleep(3) === 0 && $m->get("soon") === false, "an expiry of a second");
}

[, $host, $port] = $argv;
$m = connect($host, (int)$port, ($argv[3] ?? "") === "binary");
stores($m);
changes($m);
if (($argv[3] ?? "") !== "binary") {
    $plain = connect($host, (int)$port, false, [Memcached::OPT_COMPRESSION => false]);
    $plain->set("joined", "b");
    tell($plain->append("joined", "c") && $plain->prepend("joined", "a") && $plain->get("joined") === "abc", "append, prepend");
    $quick = connect($host, (int)$port, false, [Memcached::OPT_NOREPLY => true, Memcached::OPT_NO_BLOCK => true]);
    $quick->set("quiet", "1");
    usleep(100000);
    tell($m->get("quiet") === "1", "noreply");
    expiries($m);
    tell($m->flush() && $m->get("a") === false, "flush");
}
