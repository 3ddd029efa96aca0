<?php
// session.php NUMBER LENGTH: a session of this number gets data of so many bytes, is closed, and is opened again. suites runs it with
// memcached's handler. It prints "ok" if the data is there, and what went wrong otherwise.
[, $number, $length] = $argv;
set_error_handler(function ($level, $text) { echo "warning: $text\n"; return true; });
ini_set("session.use_cookies", "0");
ini_set("session.use_only_cookies", "0");
ini_set("session.cache_limiter", "");
function open($number) {
    session_id("s$number");
    return session_start();
}
if (!open($number)) exit("the session does not start\n");
$_SESSION["data"] = str_repeat("abcdefghij", intdiv($length, 10));
session_write_close();
$_SESSION = [];
if (!open($number)) exit("the session does not start again\n");
echo strlen($_SESSION["data"] ?? "") === (int)$length ? "ok\n" : "the data is lost\n";
session_destroy();
