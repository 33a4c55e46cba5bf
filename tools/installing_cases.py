#!/usr/bin/env python3
"""Tests of what is installed, and of the recipe for several machines.

    tools/installing_cases.py [CLASS ..]      Installing, Machines
"""
import os
import re
import shutil
import socket
import subprocess
import sys
import unittest

import day
from day import COPY, TOP, Case, Ran, program_alone


class Installing(Case):
    """tools/install.sh puts the program, its page and its completion under a prefix, and takes them away."""

    def install(self, *words, **variables):
        return subprocess.run([f"{TOP}/tools/install.sh", *words], env=dict(os.environ, DSPFX_PROGRAM=program_alone(), **variables),
                              cwd=self.folder, stdout=subprocess.PIPE, stderr=subprocess.STDOUT, text=True)  # fmt: skip

    def files(self, name="prefix"):
        return sorted(os.path.relpath(f"{folder}/{it}", self.path(name)) for folder, _, names in os.walk(self.path(name)) for it in names)

    FILES = ["bin/dspfx", "share/bash-completion/completions/dspfx", "share/dspfx/installed", "share/man/man1/dspfx.1"]

    def test_there_and_away(self):
        for _ in range(2):  # (a second time over the first)
            self.assertEqual(self.install(self.path("prefix")).returncode, 0)
            self.assertEqual(self.files(), self.FILES)
        self.assertTrue(os.access(self.path("prefix/bin/dspfx"), os.X_OK))
        self.assertEqual(self.install("--uninstall", self.path("prefix")).returncode, 0)
        self.assertFalse(os.path.exists(self.path("prefix")))
        self.assertEqual(self.install("--other").returncode, 1)
        self.assertEqual(self.install("--uninstall", self.path("prefix")).returncode, 1)

    def test_prefixes(self):
        """A prefix with spaces, one that is relative, and DESTDIR before one that is not."""
        for words, variables, name in ((["a b  c"], {}, "a b  c"), (["./x"], {}, "x"), (["/usr"], {"DESTDIR": self.path("pack age")}, "pack age/usr")):
            with self.subTest(words):
                ran = self.install(*words, **variables)
                self.assertEqual((ran.returncode, self.files(name)), (0, self.FILES), ran.stdout)
                self.assertIn(f"is in {self.folder}/", ran.stdout)
                self.assertEqual(self.install("--uninstall", *words, **variables).returncode, 0)
                self.assertFalse(os.path.exists(self.path(name)))
        self.assertIn("a PREFIX begins with /", self.install("usr", DESTDIR=self.path("d")).stdout)
        self.assertEqual(os.listdir(self.folder), ["pack age"])

    def test_files_of_others(self):
        """What was there is neither overwritten nor removed, nor is what has changed since."""
        os.makedirs(self.path("prefix/bin"))
        self.write("prefix/bin/dspfx", "mine")
        self.assertIn("was not installed by this: remove it first", self.install("prefix").stdout)
        self.assertEqual(self.install("--uninstall", "prefix").returncode, 1)
        self.assertEqual((self.content("prefix/bin/dspfx"), sorted(os.listdir(self.path("prefix")))), (b"mine", ["bin"]))
        self.write("prefix/bin/other", "mine too")
        os.remove(self.path("prefix/bin/dspfx"))
        self.assertEqual(self.install("prefix").returncode, 0)
        self.write("prefix/share/man/man1/dspfx.1", "edited")
        ran = self.install("--uninstall", "prefix")
        self.assertEqual((ran.returncode, "are left in" in ran.stdout, self.content("prefix/share/man/man1/dspfx.1")), (1, True, b"edited"))
        os.remove(self.path("prefix/share/man/man1/dspfx.1"))
        self.assertEqual(self.install("--uninstall", "prefix").returncode, 0)
        self.assertEqual(self.files(), ["bin/other"])

    def test_an_end_in_the_middle(self):
        """An installation that is stopped leaves nothing while no file is in place, and else what --uninstall removes."""
        os.mkdir(self.path("bin"))
        count = self.path("count")
        for command, call in (("install", 1), ("install", 2), ("mv", 1), ("mv", 2), ("mv", 3), ("mv", 4), ("mv", 5)):
            with self.subTest(f"{command} {call}"):
                real = shutil.which(command)
                self.write(f"bin/{command}", f'#!/bin/sh\necho >>{count}\n[ $(wc -l <{count}) != {call} ] || {{ kill -TERM $PPID; sleep 0.2; exit 1; }}\nexec {real} "$@"\n')
                os.chmod(self.path(f"bin/{command}"), 0o755)
                ran = self.install("prefix", PATH=f"{self.path('bin')}:{os.environ['PATH']}")
                self.assertNotEqual(ran.returncode, 0)
                if os.path.exists(self.path("prefix")):
                    self.assertEqual(self.install("--uninstall", "prefix").returncode, 0)
                self.assertFalse(os.path.exists(self.path("prefix")), self.files())
                os.remove(self.path(f"bin/{command}"))
                os.remove(count)

    def test_words(self):
        prefix = self.path("prefix")
        for words in ((prefix, "--uninstall"), (prefix, "more"), ("",), ("--uninstall", "")):
            self.assertEqual(self.install(*words).returncode, 1, words)
        self.assertEqual(os.listdir(self.folder), [])
        ran = self.install("--help")
        self.assertEqual((ran.returncode, ran.stdout.split()[0]), (0, "Installs"))

    def test_for_others(self):
        """What is installed can be read by all, whoever installs it."""
        self.addCleanup(os.umask, os.umask(0o077))
        self.assertEqual(self.install(self.path("prefix")).returncode, 0)
        for folder, _, names in os.walk(self.path("prefix")):
            for path in (folder, *(f"{folder}/{name}" for name in names)):
                self.assertEqual(os.stat(path).st_mode & 0o044, 0o044, path)

    def test_the_page(self):
        self.write("dspfx.1", Ran(self.folder, [sys.executable, f"{TOP}/tools/man.py"]).out)
        if shutil.which("mandoc"):
            ran = Ran(self.folder, ["mandoc", "-T", "lint", "-W", "warning", "dspfx.1"])
            self.assertEqual((ran.status, ran.out + ran.err), (0, ""))
        if shutil.which("man"):
            text = re.sub(r"\s+", " ", Ran(self.folder, ["man", "-l", "dspfx.1"]).out)
            self.assertNotIn("no program to run", text)
            for words in ("gen SEED FRAMES SCRIPT OUT", "convert au wave IN OUT", "dspfx: output not written", "SEE ALSO"):
                self.assertIn(words, text)

    def test_completion(self):
        def completed(*words):
            script = f"source {TOP}/tools/completion.bash; COMP_WORDS=({' '.join(words)}); COMP_CWORD={len(words) - 1}; _dspfx 2>/dev/null; echo ${{COMPREPLY[*]}}"
            return Ran(self.folder, ["bash", "-c", script]).out.split()

        self.write("script.txt", COPY)
        self.assertEqual(completed("dspfx", "ru"), ["run"])
        self.assertEqual(completed("dspfx", "run", "scr"), ["script.txt"])
        self.assertEqual(completed("dspfx", "run", "a", "b", "c", "bl"), ["block"])
        self.assertEqual(completed("dspfx", "bank", "scr"), ["script.txt"])
        self.assertEqual(completed("dspfx", "che"), ["check"])
        self.assertEqual(completed("dspfx", "check", "a", "b", "scr"), ["script.txt"])
        self.assertEqual(completed("dspfx", "convert", "au", "''"), ["wave"])
        self.assertEqual(completed("dspfx", "gen", "7", "s"), [])
        self.assertEqual(completed("dspfx", "convert", "au", "w"), ["wave"])


class Machines(Case):
    """The recipe for several machines, over an sshd on this machine."""

    @unittest.skipUnless(all(map(shutil.which, ("parallel", "rsync", "ssh", "ssh-keygen"))) and os.path.exists("/usr/sbin/sshd"),
                         "no sshd, parallel and rsync")  # fmt: skip
    def test_the_recipe(self):
        for key in ("host", "user"):
            subprocess.run(["ssh-keygen", "-q", "-t", "ed25519", "-N", "", "-f", self.path(key)], check=True)
        port = self.free_port()
        self.write("config", f"Port {port}\nListenAddress 127.0.0.1\nHostKey {self.path('host')}\nPidFile none\n"
                             f"AuthorizedKeysFile {self.path('user.pub')}\nStrictModes no\nUsePAM no\nPermitRootLogin yes\n")  # fmt: skip
        if os.geteuid() == 0:
            os.makedirs("/run/sshd", exist_ok=True)
        server = subprocess.Popen(["/usr/sbin/sshd", "-D", "-f", self.path("config"), "-E", self.path("log")])
        self.addCleanup(server.wait)
        self.addCleanup(server.terminate)
        with open(f"{TOP}/docs/USE.md") as file:
            recipe = re.search(r"^```bash\n(parallel -S one,two .*?)^```", file.read(), re.M | re.S)[1]
        login = (f"ssh -p {port} -i {self.path('user')} -o StrictHostKeyChecking=no -o UserKnownHostsFile=/dev/null"
                 " -o LogLevel=ERROR -o ConnectionAttempts=5 127.0.0.1")  # fmt: skip
        for folder in ("build", "out/recordings"):
            os.makedirs(self.path(folder))
        os.symlink(f"{TOP}/examples", self.path("examples"))
        shutil.copy(os.environ.get("DSPFX_PROGRAM", f"{TOP}/build/dspfx"), self.path("build/dspfx"))
        for name in ("one", "two"):
            shutil.copy(f"{TOP}/examples/lowpass/in.wav", self.path(f"out/recordings/{name}.wav"))
        work = f"dspfx-test-{os.getpid()}"
        recipe = recipe.replace("-S one,two", f"--will-cite -S '{login}'").replace("dspfx-run", work)
        self.ends(Ran(self.folder, ["bash", "-eu", "-c", recipe]), 0)
        for name in ("one", "two"):
            with open(f"{TOP}/examples/lowpass/expected.wav", "rb") as file:
                self.assertEqual(self.content(f"out/filtered/{name}.wav"), file.read())
        self.assertFalse(os.path.exists(os.path.expanduser(f"~/{work}")))

    def free_port(self):
        with socket.socket() as it:
            it.bind(("127.0.0.1", 0))
            return it.getsockname()[1]


if __name__ == "__main__":
    day.main()
