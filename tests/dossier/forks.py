"""Runs the script ntpaudit-dossier again and again, each time in a process of its own, with its modules loaded already.

usage: python3 -I -S -B -X utf8 tests/dossier/forks.py SCRIPT < SOCKET

A call comes over the socket: words, folder, environment, limit of memory, and its three streams. What goes back is the
process's number, and at its end its status.
"""
import importlib
import json
import os
import resource
import socket
import sys
from pathlib import Path

script = Path(sys.argv[1])
sys.path.insert(0, str(script.parent))
for module in sorted(script.parent.glob("dossier/**/*.py")):
    importlib.import_module(".".join(module.relative_to(script.parent).with_suffix("").parts))
del sys.path[0]
code = compile(script.read_text(), script, "exec")

calls = socket.socket(fileno=0)
while True:
    call, files, _, _ = socket.recv_fds(calls, 1 << 20, 3)
    if not call:
        sys.exit()
    process = os.fork()
    if not process:
        break
    calls.send(b"%d" % process)
    for file in files:
        os.close(file)
    calls.send(b"%d" % os.waitstatus_to_exitcode(os.waitpid(process, 0)[1]))
calls.detach()
for number, file in enumerate(files):
    os.dup2(file, number)
    os.close(file)
words, folder, environment, memory = json.loads(call)
if memory:
    resource.setrlimit(resource.RLIMIT_AS, (memory, memory))
os.chdir(folder)
home = os.open(".", os.O_PATH | os.O_DIRECTORY)
os.dup2(home, sys.modules["dossier.folder.files"].HOME, inheritable=False)
os.close(home)
os.environ.clear()
os.environ.update(environment)
sys.argv[1:] = words
exec(code, {"__name__": "__main__", "__file__": str(script)})
