"""Runs a command between pipes that do not wait: nothing to read at first, then more lines than a pipe takes.
pipes.py COUNT LINE ANSWER COMMAND ..  prints how often the answer came, the status, and what was said on standard error."""
import fcntl, os, subprocess, sys, threading, time
count, line, answer = int(sys.argv[1]), sys.argv[2].encode() + b'\n', sys.argv[3].encode() + b'\n'
(read, feed), (take, write) = os.pipe(), os.pipe()
for end in read, write:
    fcntl.fcntl(end, fcntl.F_SETFL, fcntl.fcntl(end, fcntl.F_GETFL) | os.O_NONBLOCK)
child = subprocess.Popen(sys.argv[4:], stdin=read, stdout=write, stderr=subprocess.PIPE)
os.close(read), os.close(write)
def give():
    time.sleep(0.3)
    with os.fdopen(feed, 'wb') as end: end.write(line * count)
threading.Thread(target=give).start()
time.sleep(1)
with os.fdopen(take, 'rb') as end: answers = end.read().count(answer)
said = child.stderr.read().decode()
print(answers, child.wait(), said)
