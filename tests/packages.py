"""What tools/test-packages does where packages are missing, by an apt-get of the tests' own."""

import shutil
import subprocess

from testing.program import TOP, RoomTest

SCRIPT = TOP / "tools" / "test-packages"
NEEDED = ("sh", "grep", "tail", "mktemp", "rm", "timeout", "cat")
DPKG_QUERY = 'for name in "$@"; do :; done\ngrep -qx -e "$name" "$THERE" && printf installed\n'  # the last word is a package
APT_CACHE = 'grep -qx -e "$2" "$UNKNOWN" && echo "  Candidate: (none)" || echo "  Candidate: 1"\n'
APT_GET = """echo "$DEBIAN_FRONTEND $*" >> "$CALLS"
case " $* " in *" update "*) exit 0;; *" $FAILS "*) echo "no room for $FAILS"; exit 100;; esac
for name in "$@"; do echo "$name" >> "$THERE"; done
"""


class Packages(RoomTest):
    def setUp(self):
        super().setUp()
        self.all = subprocess.run([SCRIPT, "--list"], stdout=subprocess.PIPE, text=True, check=True).stdout.split()
        (self.room / "bin").mkdir()
        for name in NEEDED:
            (self.room / "bin" / name).symlink_to(shutil.which(name))
        for name in ("there", "unknown", "calls"):
            self.put(name, [])
        for name, text in (("dpkg-query", DPKG_QUERY), ("apt-cache", APT_CACHE), ("apt-get", APT_GET)):
            self.put_program(name, text)

    def put(self, name, lines):
        (self.room / name).write_text("".join(f"{line}\n" for line in lines))

    def put_program(self, name, text):
        path = self.room / "bin" / name
        path.write_text("#!/bin/sh\n" + text)
        path.chmod(0o755)

    def install(self, user="0", fails="none"):
        """The status and what is said, as this user."""
        self.put_program("id", f"echo {user}\n")
        environ = {"PATH": str(self.room / "bin"), "FAILS": fails, **{name.upper(): str(self.room / name) for name in ("there", "unknown", "calls")}}
        ran = subprocess.run([SCRIPT], stdin=subprocess.DEVNULL, stdout=subprocess.PIPE, stderr=subprocess.PIPE, text=True, env=environ, timeout=120,
                             check=False)
        self.assertEqual(ran.stdout, "")
        return ran.returncode, ran.stderr

    def calls(self):
        return (self.room / "calls").read_text().splitlines()

    def test_all_is_there(self):
        self.put("there", self.all)
        self.assertEqual((self.install(), self.calls()), ((0, ""), []))

    def test_what_is_missing_is_installed_by_one_call(self):
        self.put("there", [name for name in self.all if name not in ("clang-15", "oclgrind")])
        self.assertEqual(self.install(), (0, ""))
        update, install = self.calls()
        self.assertTrue(update.endswith(" update") and install.endswith(" install -y --no-install-recommends --no-remove clang-15 oclgrind"), install)
        self.assertTrue(install.startswith("noninteractive "), install)

    def test_a_package_that_is_not_known_keeps_no_other_from_being_installed(self):
        self.put("unknown", ["oclgrind"])
        self.assertEqual(self.install(), (1, "test-packages: these could not be installed: oclgrind \n"))
        self.assertEqual(set(self.all) - set((self.room / "there").read_text().split()), {"oclgrind"})

    def test_nor_does_one_that_fails(self):
        self.put("there", [name for name in self.all if name not in ("clang-15", "oclgrind", "chromium")])
        said = "test-packages: no room for chromium\ntest-packages: these could not be installed: chromium \n"
        self.assertEqual(self.install(fails="chromium"), (1, said))
        self.assertEqual(set(self.all) - set((self.room / "there").read_text().split()), {"chromium"})

    def test_without_root(self):
        self.put("there", self.all[1:])
        self.assertEqual(self.install(user="1000"), (1, f"test-packages: not root, so these are not installed: {self.all[0]} \n"))
        self.assertEqual(self.calls(), [])

    def test_without_root_by_sudo(self):
        self.put("there", self.all[1:])
        self.put_program("sudo", 'while [ "${1#-}" != "$1" ]; do shift; done\n[ "$1" = true ] || exec "$@"\n')
        self.assertEqual(self.install(user="1000"), (0, ""))
        self.assertEqual(len(self.calls()), 2)

    def test_without_apt(self):
        (self.room / "bin" / "apt-get").unlink()
        self.assertEqual(self.install(), (1, f"test-packages: there is no apt-get; what the tests want is, by the names of Debian: {' '.join(self.all)}\n"))
