"""What is done to the built program and to the C library. `python3 -m unittest` runs all of it, and with `tests.program.test_links -k sticky` one
test; AGE_TOOL names another program than ./age_tool's, AGE_OBJECT another proved object of it, and AGE_C_DIR another folder of the library."""
import os
import signal
import sys

# Names and pages are UTF-8: in a locale that isn't, Python begins once more.
if (
    sys.getfilesystemencoding() != "utf-8"
    and os.environ.get("PYTHONUTF8") != "1"
    and hasattr(sys, "orig_argv")
):
    os.environ["PYTHONUTF8"] = "1"
    os.execv(sys.executable, sys.orig_argv)

# A checkout may be another user's.
os.environ |= {
    "GIT_CONFIG_COUNT": "1",
    "GIT_CONFIG_KEY_0": "safe.directory",
    "GIT_CONFIG_VALUE_0": "*",
}

# A shell that runs the tests in the background has them ignore interrupts, and nohup has them ignore hangups. What they start would, too,
# but for a signal that is handled, as by nothing here.
for number in (signal.SIGINT, signal.SIGHUP):
    if signal.getsignal(number) == signal.SIG_IGN:
        signal.signal(number, lambda *_: None)
