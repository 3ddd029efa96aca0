"""Inputs of recorders/convert: what each good one becomes, and at which place each bad one is refused with which words. test_convert.py tries them.

A case is (name, words of the command line without FILE, input, lines that are written), or in place of the lines (LINE:COLUMN, words)."""
CSV = "csv --start s --end e --op o --key k --value v"
JSONL = "jsonl --start s --end e --op o --key k --value v"
NUMBERED = "csv --no-header --start 1 --end 2 --op 3 --key 4 --value 5"
HEAD = b"s,e,o,k,v\n"
RESULT = b"s,e,o,k,v,r\n"
JEPSEN, PORCUPINE = "jepsen", "porcupine"
LONG = b"0123456789" * 7
LONG_HASH = b"sha256.57445fa40b08c60cdcba7ca39c756de6"


def operation(kind, act, value, more=b""):
    """Returns a line of a Jepsen history."""
    return b"{:type :%b, :f :%b, :value %b, :process 0%b}\n" % (kind, act, value, more)


def logged(kind, act, value, key=b"a", process=b"0"):
    """Returns a line of a Porcupine log."""
    return b'{:process %b, :type :%b, :f :%b, :key "%b", :value %b}\n' % (process, kind, act, key, value)


GOOD = (
    ("a row of each kind", CSV, HEAD + b"1,2,SET,a,x\n3,4,get,a,x\n5,6,Delete,a,\n7,8,get,a,\n",
     b"caller 1 2 put a x\ncaller 3 4 hit a x\ncaller 5 6 remove a\ncaller 7 8 miss a\n"),
    ("columns in another order, and more of them", CSV, b"v,x,o,e,k,s\nx,0,put,2,a,1\n", b"caller 1 2 put a x\n"),
    ("a field in quotes with the delimiter, quotes and a line feed", CSV, HEAD + b'1,2,put,"a,""b","x\ny"\n3,4,get,"a,""b","x\ny"\n',
     b'caller 1 2 put a,"b x%0Ay\ncaller 3 4 hit a,"b x%0Ay\n'),
    ("a carriage return and a line feed, a mark at the begin, no line feed at the end", CSV, b"\xef\xbb\xbfs,e,o,k,v\r\n1,2,put,a,x\r\n\r\n3,4,get,a,x",
     b"caller 1 2 put a x\ncaller 3 4 hit a x\n"),
    ("tabs", CSV + " --delimiter tab", b"s\te\to\tk\tv\n1\t2\tput\ta b\tx\n", b"caller 1 2 put a%20b x\n"),
    ("no header", NUMBERED, b"1,2,put,a,x\n", b"caller 1 2 put a x\n"),
    ("bytes that are coded, a hyphen, and UTF-8", CSV, HEAD + "1,2,put,-,#%\n3,4,put,é,-\n".encode(), b"caller 1 2 put %2D %23%25\ncaller 3 4 put %C3%A9 %2D\n"),
    ("a long value is hashed", CSV, HEAD + b"1,2,put,a," + LONG + b"\n3,4,put,a," + LONG[:64] + b"\n",
     b"caller 1 2 put a " + LONG_HASH + b"\ncaller 3 4 put a " + LONG[:64] + b"\n"),
    ("a tag stays in front of a hash", CSV, HEAD + b"1,2,put,a,rec.0123456789ab.7|" + LONG + b"\n", b"caller 1 2 put a rec.0123456789ab.7|" + LONG_HASH + b"\n"),
    ("all values are hashed", CSV + " --hash-over 0", HEAD + b"1,2,put,a,x\n", b"caller 1 2 put a sha256.2d711642b726b04401627ca9fbac32f5\n"),
    ("no value is hashed up to 2,048 bytes", CSV + " --hash-over 2048", HEAD + b"1,2,put,a," + LONG + b"\n", b"caller 1 2 put a " + LONG + b"\n"),
    ("long keys are hashed", CSV + " --hash-keys", HEAD + b"1,2,put," + LONG + b",x\n3,4,put," + LONG * 4 + b",x\n",
     b"caller 1 2 put " + LONG_HASH + b" x\ncaller 3 4 put sha256.6136e7c9572f2c592e839c78a876cdb6 x\n"),
    ("seconds with a fraction", CSV + " --unit s", HEAD + b"1764590125.000000001,1764590125.123456789,put,a,x\n",
     b"caller 1764590125000000001 1764590125123456789 put a x\n"),
    ("the last nanosecond of an end in milliseconds", CSV + " --unit ms", HEAD + b"5,5,put,a,x\n6.5,7.25,put,a,y\n",
     b"caller 5000000 5999999 put a x\ncaller 6500000 7259999 put a y\n"),
    ("microseconds, and more digits than nanoseconds have", CSV + " --unit us", HEAD + b"5,6,put,a,x\n7.00099,8.0009,put,a,y\n",
     b"caller 5000 6999 put a x\ncaller 7000 8000 put a y\n"),
    ("stamps of RFC 3339", CSV + " --unit rfc3339", HEAD + b"1970-01-01T00:00:01.5Z,1970-01-01 02:00:02.123456789+02:00,put,a,x\n"
     b"2026-12-01T11:55:25.000001z,2026-12-01T06:25:25.000002-05:30,put,a,y\n",
     b"caller 1500000000 2123456789 put a x\ncaller 1796126125000001000 1796126125000002999 put a y\n"),
    ("how long it took, after a start", "csv --start s --took e --op o --key k --value v --unit ms", HEAD + b"5,2,put,a,x\n", b"caller 5000000 9000000 put a x\n"),
    ("how long it took, before an end", "csv --end s --took e --op o --key k --value v --unit us", HEAD + b"5,2,put,a,x\n1,2,put,a,y\n",
     b"caller 2000 5999 put a x\ncaller 0 1999 put a y\n"),
    ("a stamp of RFC 3339 and milliseconds", "csv --start s --took e --op o --key k --value v --unit rfc3339", HEAD + b"1970-01-01T00:00:01.000Z,0.5,put,a,x\n",
     b"caller 1000000000 1001600000 put a x\n"),
    ("calls that are open", CSV, HEAD + b"1,,put,a,x\n2,-,del,a,\n3,,get,a,x\n", b"caller 1 - put a x\ncaller 2 - remove a\n"
     b"# 1 rows of gets without an answer, or of calls that failed, have no line\n"),
    ("each result", CSV + " --result r", RESULT + b"1,2,get,a,x,HIT\n3,4,get,a,,hit\n5,6,get,a,x,miss\n9,10,get,a,x,ok\n11,12,put,a,x,stored\n"
     b"13,14,put,a,x,unknown\n15,16,put,a,x,failed\n17,18,del,a,,miss\n19,20,del,a,,timeout\n21,22,get,a,x,unknown\n",
     b"caller 1 2 hit a x\ncaller 3 4 hit a -\ncaller 5 6 miss a\ncaller 9 10 hit a x\ncaller 11 12 put a x\ncaller 13 - put a x\n"
     b"caller 17 18 remove a\ncaller 19 - remove a\n# 2 rows of gets without an answer, or of calls that failed, have no line\n"),
    ("names of operations and results", CSV + " --result r --map fill=put --map peek=get --map PING=skip --map-result 200=stored --map-result =stored",
     RESULT + b"1,2,FILL,a,x,200\n3,4,peek,a,x,\n5,6,ping,,,what\n", b"caller 1 2 put a x\ncaller 3 4 hit a x\n"),
    ("a key that an operation leaves out", CSV + " --map incr=leave", HEAD + b"1,2,put,n,1\n3,4,put,a,x\n5,6,incr,n,\n7,8,get,n,2\n9,10,get,a,x\n",
     b"caller 3 4 put a x\ncaller 9 10 hit a x\n# 1 keys were left out\n"),
    ("callers", CSV + " --caller r", RESULT + b"1,2,put,a,x,web 1\n3,4,get,a,x,\n", b"web%201 1 2 put a x\ncaller 3 4 hit a x\n"),
    ("lifetimes", CSV + " --ttl r", RESULT + b"1,2,put,a,x,3\n3,4,get,a,x,\n5,6,put,a,x,0\n7,,put,a,x,3\n8,9,put,a,x,9999999999999\n",
     b"caller 1 2 put a x 5000000002\ncaller 3 4 hit a x 3\ncaller 5 6 put a x\ncaller 7 - put a x\ncaller 8 9 put a x\n"),
    ("bad lines are passed over", CSV + " --skip-bad", HEAD + b"1,2,put,a,x\nzzz\n3,4,what,a,x\n5,4,put,a,x\n\xff,4,put,a,x\n6,7,get,a,x\n",
     b"caller 1 2 put a x\ncaller 6 7 hit a x\n# 4 bad lines were passed over\n"),
    ("objects", JSONL, b'{"s":1,"e":2,"o":"set","k":"a","v":"x"}\n\n{"s":"3","e":4,"o":"GET","k":"a","v":"x","z":[1]}\n{"s":5,"e":6,"o":"get","k":"a","v":null}\n'
     b'{"s":7,"e":8,"o":"get","k":"a"}\n{"s":9,"e":10,"o":"get","k":"a","v":""}\n{"s":11,"e":null,"o":"del","k":"a"}\n',
     b"caller 1 2 put a x\ncaller 3 4 hit a x\ncaller 5 6 miss a\ncaller 7 8 miss a\ncaller 9 10 hit a -\ncaller 11 - remove a\n"),
    ("values of other types, each with one spelling", JSONL, b'{"s":1,"e":2,"o":"set","k":7,"v":{"b":[1.50,true],"a":"\\u00e9"}}\n{"s":3,"e":4,"o":"get","k":"7","v":{"a":"\xc3\xa9", "b":[1.50,true]}}\n'
     b'{"s":5,"e":6,"o":"set","k":7,"v":false}\n',
     b'caller 1 2 put 7 {"a":"%C3%A9","b":["1.50",true]}\ncaller 3 4 hit 7 {"a":"%C3%A9","b":["1.50",true]}\ncaller 5 6 put 7 false\n'),
    ("members of members, and a number of many digits", "jsonl --start at.from --end at.to --op o --key k.e.y --value v --unit s",
     b'{"at":{"from":1764590125.000000001,"to":1764590125.000000002},"o":"set","k.e.y":"a","v":"\\u0000\\n"}\n',
     b"caller 1764590125000000001 1764590125000000002 put a %00%0A\n"),
    ("operations of one register", JEPSEN, b"; a comment\n[\n" + operation(b"invoke", b"write", b"3", b", :time 10") + b"{:type :info, :f :start, :process :nemesis}\n"
     + operation(b"ok", b"write", b"3", b", :time 20") + operation(b"invoke", b"cas", b"[3 4]", b", :time 21") + operation(b"info", b"cas", b"[3 4]", b", :time 22")
     + operation(b"invoke", b"read", b"nil", b", :time 30") + operation(b"ok", b"read", b"4", b", :time 31, :error [:a {:b #{1}}]") + b"]\n",
     b"setup 0 0 put register nil\n0 11 21 put register 3\n0 22 - put register 4\n0 31 32 hit register 4\n"),
    ("operations of many registers, with tags and no times", JEPSEN + " --initial 0", b'#jepsen.history.Op{:process 1, :f :read, :type :invoke, :value ["k" nil]}\n'
     b'{:process 1 :f :read :type :ok :value ["k" 0]}\n{:process 2 :f :write :type :invoke :value ["k" "a b"]}\n{:process 1 :f :read :type :invoke :value [x nil]}\n',
     b'setup 0 0 put "k" 0\n1 1 2 hit "k" 0\n2 3 - put "k" "a%20b"\n'),
    ("a failed write has no line", JEPSEN, operation(b"invoke", b"write", b"3") + operation(b"fail", b"write", b"3") + operation(b"invoke", b"read", b"nil")
     + operation(b"ok", b"read", b"nil"), b"setup 0 0 put register nil\n0 3 4 hit register nil\n"),
    ("puts, gets and appends", PORCUPINE, logged(b"invoke", b"put", b'"x"') + logged(b"ok", b"put", b'"x"') + logged(b"invoke", b"append", b'"y"')
     + logged(b"ok", b"append", b'"y"') + logged(b"invoke", b"get", b"nil") + logged(b"ok", b"get", b'"xy"') + logged(b"invoke", b"put", b'"' + LONG + b'"', b"b c"),
     b"setup 0 0 put a -\n0 1 2 put a x\n0 3 4 hit a x\n0 3 4 put a xy\n0 5 6 hit a xy\nsetup 0 0 put b%20c -\n0 7 - put b%20c " + LONG_HASH + b"\n"),
)

# rows below HEAD that are refused: the name, the rows with a slash between two, the place, and the words
BAD_ROWS = """
a field too few | 1,2,put,a | 2:10 | the row has 4 fields, and the header 5: put a field that has the delimiter in quotes
a field too many | 1,2,put,a,x,y | 2:13 | the row has 6 fields, and the header 5
a quote within a field | 1,2,put,a"b,x | 2:10 | a quote within a field that has none around it
text after a quote | 1,2,put,"a"b,x | 2:12 | after a closing quote the field goes on
text after a quote, lines later | 1,2,put,"a/b"c,x | 3:3 | after a closing quote the field goes on
a quote that is never closed | 1,2,put,"a,x/3,4,put,a,x | 2:9 | the quote that begins here is never closed
a bad number | 1,2,put,a,x/3,4x,put,a,x | 3:3 | end is no number of ns: "4x"; give a number of ns
no number at all | ,2,put,a,x | 2:1 | there is no start
a number below 0 | -1,2,put,a,x | 2:1 | it must not be below 0
digits of another script | ١,2,put,a,x | 2:1 | start is no number of ns
a number above 2^63 | 9223372036854775808,2,put,a,x | 2:1 | start is above 2^63 - 1 nanoseconds
a date where a number stands | 2026-12-01T11:55:25Z,2,put,a,x | 2:1 | give --unit rfc3339
an end before its start | 5,4,put,a,x | 2:3 | the end "4" is before the start "5"
an unknown operation | 1,2,frobnicate,a,x | 2:5 | the operation "frobnicate" is unknown: say what it is by --map frobnicate=get
an operation that can't be judged | 1,2,INCR,a,x | 2:5 | leave out its keys by --map incr=leave
an operation of many keys | 1,2,mget,a,x | 2:5 | write a row for each key
an empty operation | 1,2,,a,x | 2:5 | the operation "" is unknown
an empty key | 1,2,put,,x | 2:9 | a key has 1 to 255 bytes, and this one has 0
"""


def rows_refused():
    """Returns the cases of BAD_ROWS."""
    for line in BAD_ROWS.strip().split("\n"):
        name, rows, place, what = line.split(" | ")
        yield name, CSV, HEAD + rows.replace("/", "\n").encode() + b"\n", (place, what)


BAD = (
    *rows_refused(),
    ("nothing", CSV, b"", ("1:1", "the input is empty: give it a header")),
    ("a header alone", CSV, HEAD, ("1:1", "the input has no call")),
    ("no column", CSV, b"s,e,o,key,v\n1,2,put,a,x\n", ("1:1", "there is no column k: the header has s, e, o, key, v")),
    ("two columns", CSV, b"s,e,o,k,v,k\n", ("1:1", "two columns are named k")),
    ("rows of two widths", NUMBERED, b"1,2,put,a,x\n1,2,put,a\n", ("2:10", "the row has 4 fields, and the first row 5")),
    ("a column past the row", NUMBERED, b"1,2,put,a\n", ("1:1", "the row has 4 fields, and a column 5 is named")),
    ("a column by its name without a header", "csv --no-header --start s --end 2 --op 3 --key 4 --value 4", b"1,2,put,a\n", ("1:1", "with --no-header a column is a number from 1, not s")),
    ("an exponent", CSV + " --unit s", HEAD + b"1.7e9,2,put,a,x\n", ("2:1", "one with an exponent has lost digits")),
    ("a fraction above 2^63", CSV + " --unit s", HEAD + b"1,99999999999.5,put,a,x\n", ("2:3", "end is above 2^63 - 1 nanoseconds")),
    ("a time taken above 2^63", "csv --start s --took e --op o --key k --value v --unit s", HEAD + b"1,99999999999,put,a,x\n", ("2:3", "the call would end above 2^63 - 1")),
    ("a stamp of another unit", CSV + " --unit s", HEAD + b"1,17645901250000000,put,a,x\n", ("2:3", "end is above 2^63 - 1 nanoseconds: \"17645901250000000\"; is its unit s?")),
    ("a number where a date stands", CSV + " --unit rfc3339", HEAD + b"1,2,put,a,x\n", ("2:1", "for a number give --unit s, ms, us or ns")),
    ("a date without a zone", CSV + " --unit rfc3339", HEAD + b"2026-12-01T11:55:25.5,2,put,a,x\n", ("2:1", "it has no zone: write Z")),
    ("a month that there is not", CSV + " --unit rfc3339", HEAD + b"2026-13-01T11:55:25Z,2,put,a,x\n", ("2:1", "start is no time that there is")),
    ("a zone that there is not", CSV + " --unit rfc3339", HEAD + b"2026-12-01T11:55:25+99:00,2,put,a,x\n", ("2:1", "start is no time that there is")),
    ("a year before 1970", CSV + " --unit rfc3339", HEAD + b"1969-12-31T23:59:59Z,2,put,a,x\n", ("2:1", "start is before 1970")),
    ("an unknown result", CSV + " --result r", RESULT + b"1,2,put,a,x,200\n", ("2:13", 'the result "200" is unknown: say what it is by --map-result')),
    ("a get that went well, with an empty field", CSV + " --result r", RESULT + b"1,2,get,a,,ok\n", ("2:12", 'the result "ok" does not say whether this get hit')),
    ("a put that hit", CSV + " --result r", RESULT + b"1,2,put,a,x,hit\n", ("2:13", 'a put can\'t have the result "hit"')),
    ("a key of 256 bytes", CSV, HEAD + b"1,2,put," + b"k" * 256 + b",x\n", ("2:9", "a key has 1 to 255 bytes, and this one has 256: leave out its calls (--skip-bad), or give --hash-keys")),
    ("a NUL byte", CSV, HEAD + b"1,2,put,a\0,x\n", ("2:10", "a NUL byte")),
    ("UTF-16", CSV, "s,e\n".encode("utf-16"), ("1:4", "a NUL byte: the file is in UTF-16 or was damaged; write it in UTF-8")),
    ("no UTF-8", CSV, HEAD + b"1,2,put,a,caf\xe9\n", ("2:14", "the byte e9 is no UTF-8: write the file in UTF-8")),
    ("a line without an end", CSV, HEAD + b"1" * (1 << 24) + b"22", ("2:16777217", "the line has more than 16777216 bytes")),
    ("a lifetime that is no number", CSV + " --ttl r", RESULT + b"1,2,put,a,x,long\n", ("2:13", "ttl is no number of s")),
    ("a time taken that is no number", "csv --start s --took e --op o --key k --value v", HEAD + b"1,x,put,a,x\n", ("2:3", "took is no number of ns")),
    ("too many callers", NUMBERED + " --caller 6", b"".join(b"1,2,put,a,x,%d\n" % it for it in range(65537)), ("65537:13", "a history has at most 65536 callers")),
    ("no objects", JSONL, b"\n\n", ("1:1", "the input has no call")),
    ("no JSON", JSONL, b'{"s":1,"e":2,"o":"set","k":"a","v":"x"}\n{"s":1,,}\n', ("2:8", "no JSON: ")),
    ("a column that counts bytes", JSONL, '{"é":1,,}\n'.encode(), ("1:9", "no JSON: ")),
    ("half an object", JSONL, b'{"s":1,"e":2,"o":"se', ("1:18", "no JSON: Unterminated string")),
    ("an array", JSONL, b"[\n", ("1:2", "of an array `jq -c .[]` makes lines")),
    ("a number alone", JSONL, b"17\n", ("1:1", "the line is no object")),
    ("two objects", JSONL, b"{} {}\n", ("1:4", "no JSON: Extra data")),
    ("a word that JSON has not", JSONL, b'{"s":NaN}\n', ("1:1", "JSON has no NaN")),
    ("deep brackets", JSONL, b"[" * 100000 + b"\n", ("1:1", "no JSON: it is nested too deeply")),
    ("a member that is missing", JSONL, b'{"s":1,"e":2,"o":"set","v":"x"}\n', ("1:1", "there is no key: each call needs one")),
    ("a stamp that is missing", JSONL, b'{"e":2,"o":"set","k":"a","v":"x"}\n', ("1:1", "there is no start")),
    ("a stamp that is no number", JSONL, b'{"s":1, "e": true,"o":"set","k":"a","v":"x"}\n', ("1:14", 'end is no number of ns: "true"')),
    ("a put without its value", JSONL, b'{"s":1,"e":2,"o":"set","k":"a","v": null}\n', ("1:37", "a put or a hit has a value, and this one has none")),
    ("a hit without its value", JSONL + " --result r", b'{"s":1,"e":2,"o":"get","k":"a","r":"hit"}\n', ("1:1", "a put or a hit has a value")),
    ("a key that is an object", JSONL, b'{"s":1,"e":2,"o":"set","k":{},"v":"x"}\n', ("1:28", "the member k is an object: give a text or a number")),
    ("half of a surrogate pair", JSONL, b'{"s":1,"e":2,"o":"set","k":"a\\ud800","v":"x"}\n', ("1:28", "half of a surrogate pair")),
    ("a control character", JSONL, b'{"s":1,"e":2,"o":"set","k":"a\x01","v":"x"}\n', ("1:30", "no JSON: Invalid control character")),
    ("no operation", JEPSEN, b"", ("1:1", "the input has no call")),
    ("no EDN", JEPSEN, b"{:type :ok\n", ("1:1", "the bracket that opens here is never closed by }")),
    ("a bracket that closes nothing", JEPSEN, b"{:type ]}\n", ("1:8", "a ] that closes nothing")),
    ("a text that is open", JEPSEN, b'{:type :ok, :value "a}\n', ("1:20", "a text without its closing quote")),
    ("a vector", JEPSEN, b"[:ok 1]\n", ("1:2", "no map of EDN")),
    ("two maps in a line", JEPSEN, operation(b"invoke", b"read", b"nil")[:-1] + b" {}\n", ("1:51", "something follows the map")),
    ("a map without a type", JEPSEN, b"{:process 0, :f :read}\n", ("1:1", "an operation has a :process, a :f, and a :type")),
    ("a function of another kind", JEPSEN, operation(b"invoke", b"txn", b"nil"), ("1:20", 'the function ":txn" is none of :read, :write and :cas')),
    ("a value of another kind", JEPSEN, operation(b"invoke", b"cas", b"3"), ("1:33", "this is no :value of :cas")),
    ("a map as a value", JEPSEN, operation(b"invoke", b"write", b"{:a 1}"), ("1:35", "a map or a set is no value of a register")),
    ("a process that began twice", JEPSEN, operation(b"invoke", b"read", b"nil") * 2, ("2:48", "process 0 began twice")),
    ("an end without its beginning", JEPSEN, operation(b"ok", b"read", b"1"), ("1:42", "process 0 ended what it had not begun")),
    ("an end of another function", JEPSEN, operation(b"invoke", b"read", b"nil") + operation(b"ok", b"write", b"1"), ("2:16", "process 0 began :read, and ends :write")),
    ("an end before its start in a history", JEPSEN, operation(b"invoke", b"read", b"nil", b", :time 5") + operation(b"ok", b"read", b"1", b", :time 4"), ("2:42", "the end is before the start: process 0 began at 5")),
    ("a time that is no number", JEPSEN, operation(b"invoke", b"read", b"nil", b", :time 5.5"), ("1:57", "the :time is no number of nanoseconds")),
    ("a time that is missing", JEPSEN, operation(b"invoke", b"read", b"nil", b", :time 5") + operation(b"ok", b"read", b"1"), ("2:1", "some operations have a :time and some have none")),
    ("a register with a long name", JEPSEN, operation(b"invoke", b"write", b"[" + b"k" * 256 + b" 1]") + operation(b"ok", b"write", b"[" + b"k" * 256 + b" 1]"), ("2:1", "a key has 1 to 255 bytes")),
    ("no UTF-8 in a history", JEPSEN, b"{:type \xff}\n", ("1:8", "the byte ff is no UTF-8")),
    ("no log", PORCUPINE, b"", ("1:1", "the input has no call")),
    ("another log", PORCUPINE, b"{:process 1, :type :fail, :f :get}\n", ("1:20", "no operation, such as")),
    ("a put without a value", PORCUPINE, logged(b"invoke", b"put", b"nil"), ("1:55", "no :value of :invoke :put")),
    ("a process that began twice in a log", PORCUPINE, logged(b"invoke", b"get", b"nil") * 2, ("2:11", "process 0 began twice")),
    ("an end of another call", PORCUPINE, logged(b"invoke", b"put", b'"x"') + logged(b"ok", b"put", b'"y"'), ("2:28", "process 0 did not begin this :put: it began line 1")),
    ("an append that can't be told", PORCUPINE, logged(b"invoke", b"put", b'"x"') + logged(b"invoke", b"append", b'"xy"', process=b"1"), ("2:1", "appends are covered only if")),
    ("an empty key in a log", PORCUPINE, logged(b"invoke", b"get", b"nil", b""), ("1:1", "a key has 1 to 255 bytes, and this one has 0")),
)

# words of the command line that are refused, and by which words
REFUSED = (
    ("", "the following arguments are required: FORM"),
    ("xml x", "invalid choice: 'xml'"),
    ("csv --op o --key k --value v x", "give --start and --end, or one of them with --took"),
    ("csv --start s --end e --took t --op o --key k --value v x", "with --took give one of --start and --end"),
    ("csv --start s --end e --key k x", "the following arguments are required: --op, --value"),
    (CSV, "the following arguments are required: FILE"),
    (CSV + " --unit h x", "invalid choice: 'h'"),
    (CSV + " --map a=b x", "give NAME=MEANING, where MEANING is get, put, remove, skip or leave, not a=b"),
    (CSV + " --map-result a x", "give NAME=MEANING"),
    (CSV + " --hash-over 2049 x", "give a number of bytes from 0 to 2048, not 2049"),
    (CSV + " --delimiter ab x", "give one character of ASCII"),
    (CSV + " --map incr=leave -", "with =leave FILE is read twice, so it can't be standard input"),
    ("jepsen x y", "unrecognized arguments: y"),
    ("redis-monitor x", "it has one stamp, and no answer; record the calls at the client"),
    ("redis-slowlog x", "no answer"), ("memcached-watch", "one stamp and no value"), ("twemproxy x", "but no value"),
    ("mcrouter x", "write what `mcpiper` shows as JSON lines"), ("envoy x", "make the form jsonl with --took"),
)

# logs as their servers print them, and what is said of them
LOGS = (
    ("redis-monitor", b'1796128531.396888 [0 127.0.0.1:41152] "set" "a" "x"\n'),
    ("redis-monitor", b"OK\n1796128531.408775 [0 127.0.0.1:41160] \"get\" \"a\"\n"),
    ("redis-slowlog", b"1) 1) (integer) 3\n   2) (integer) 1796128531\n"),
    ("memcached-watch", b"OK\r\nts=1796128602.730145 gid=2 type=item_get key=a status=not_found clsid=0 cfd=24 size=0\r\n"),
    ("twemproxy", b"[2026-12-01 11:55:25.123] nc_request.c:101 req 5 done on c 9 req_time 0.412 msec type REQ_MC_GET narg 2 req_len 7 rsp_len 17 key0 'a'\n"),
)

# a right history in each form, and one with a stale read, for the judge; both have to be read whole
JUDGED = (
    (CSV, HEAD + b"1,2,put,a,x\n3,4,put,a,y\n5,6,get,a,y\n", HEAD + b"1,2,put,a,x\n3,4,put,a,y\n5,6,get,a,x\n"),
    (CSV + " --unit ms", HEAD + b"1,2,put,a,x\n2,3,put,a,y\n3,3,get,a,x\n", HEAD + b"1,2,put,a,x\n3,4,put,a,y\n5,6,get,a,x\n"),
    (JSONL, b'{"s":1,"e":2,"o":"set","k":"a","v":"x"}\n{"s":2,"e":3,"o":"get","k":"a","v":"x"}\n',
     b'{"s":1,"e":2,"o":"set","k":"a","v":"x"}\n{"s":3,"e":4,"o":"del","k":"a"}\n{"s":5,"e":6,"o":"get","k":"a","v":"x"}\n'),
    (JEPSEN, operation(b"invoke", b"write", b"3") + operation(b"ok", b"write", b"3") + operation(b"invoke", b"read", b"nil") + operation(b"ok", b"read", b"3"),
     operation(b"invoke", b"write", b"3") + operation(b"ok", b"write", b"3") + operation(b"invoke", b"read", b"nil") + operation(b"ok", b"read", b"nil")),
    (PORCUPINE, logged(b"invoke", b"append", b'"x"') + logged(b"ok", b"append", b'"x"') + logged(b"invoke", b"get", b"nil") + logged(b"ok", b"get", b'"x"'),
     logged(b"invoke", b"put", b'"x"') + logged(b"ok", b"put", b'"x"') + logged(b"invoke", b"get", b"nil") + logged(b"ok", b"get", b'""')),
)
