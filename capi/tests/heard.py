"""For tests that start programs: what is ignored as they begin, as by nohup(1) or in the background, is not ignored by these programs. They begin
with what a signal does by itself, since a handler of the test is none of theirs."""
import signal

# Python ignores these two itself, and starts programs without that.
for number in signal.valid_signals() - {signal.SIGPIPE, signal.SIGXFSZ}:
    if signal.getsignal(number) == signal.SIG_IGN:
        signal.signal(number, lambda *_: None)
# Ctrl-C ends a test.
signal.signal(signal.SIGINT, signal.default_int_handler)
