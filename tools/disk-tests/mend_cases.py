"""What the commands after `mend` do: they replace and forget nothing, and a user who may not mend a file gets none."""
import os
import shutil
import subprocess

from folders import bytes_of, logs_in

NOBODY = 65534


class Mends:
    """Cases of `look_tests.py`."""

    def mends_keep(self):
        """No command after `mend` replaces what an earlier one kept, or forgets what another one brings back."""
        folder = self.with_stray(os.path.join(self.work, "kept-stray"))
        stray = os.path.join(folder, f"{9:016}.raftlog")
        with open(stray + ".stray", "wb") as file:
            file.write(b"kept before")
        self.type_all(folder)
        kept = (bytes_of(stray), bytes_of(stray + ".stray"))
        self.expect(f"a second mv replaces nothing: {kept}", kept == (b"hello", b"kept before"))
        folder = self.with_second_name(os.path.join(self.work, "kept-copy"))
        path = os.path.join(folder, f"{1:016}.raftlog")
        with open(path + ".copy", "wb") as file:
            file.write(b"kept before")
        whole = bytes_of(path)
        self.type_all(folder)
        self.expect("a second copy replaces nothing", (bytes_of(path), bytes_of(path + ".copy")) == (whole, b"kept before"))
        for make, mend in ((self.with_folder, "--spill second"), (self.without_append, "none")):
            folder = make(os.path.join(self.work, f"forgets-{make.__name__}"))
            mends = {each[9] for each in self.plan_of(folder) if each[1] == "missing"}
            self.expect(f"{folder}: what is missing is not forgotten: {mends}", mends == {mend})

    def type_all(self, folder, *words, kind=None, **more):
        """Types all mends of a plan, or those of a kind, and returns them."""
        mends = [each[9] for each in self.plan_of(folder, *words) if kind in (None, each[1])]
        for mend in mends:
            ran = self.typed(mend, **more)
            self.expect(f"{mend}: {ran}", ran.returncode == 0 or "cp" in mend or "mv -n" in mend)
        return mends

    def shells(self):
        """A command is one for sh too, if no name in it has a control character."""
        for name, shell in (("a b", "sh"), ("it's", "sh"), ("größe", "sh"), ("$HOME `x` *\\", "sh"), ("tab\there", "bash")):
            folder = self.with_stray(os.path.join(self.work, name))
            mends = self.type_all(folder, shell=shell)
            ran = self.run(folder, "check")
            self.expect(f"{name!r} in {shell}: {mends}: {ran}", mends and ran.returncode == 0)

    def links_to_folders(self):
        """A link as the second folder: its mend puts the folder there. One that leads nowhere has none."""
        folder = os.path.join(self.work, "linked")
        self.run(folder, "load", 60, 40, "--target", "1KB", "--spill", "second")
        for place, target in (("linked-out", "../linked-out"), ("linked/inside", "inside")):
            place, second = os.path.join(self.work, place), os.path.join(folder, "second")
            shutil.rmtree(second, ignore_errors=True)
            os.mkdir(place)
            for name in [it for it in sorted(logs_in(folder)) if it.endswith(".raftlog")][:1]:
                os.rename(os.path.join(folder, name), os.path.join(place, name))
            os.symlink(target, second)
            words = ["--spill", "second"]
            self.expect(f"{target}: a link is refused", self.run(folder, "check", *words).returncode == 5)
            mends = self.type_all(folder, *words, kind="refused")
            ran = self.run(folder, "check", *words)
            self.expect(f"{target}: {mends}: {ran}", ran.returncode == 0 and not os.path.islink(second))
            ran = self.run(folder, "verify", 60, 40, *words)
            self.expect(f"{target}: its keys: {ran}", ran.returncode == 0)
            for name in os.listdir(second):
                os.rename(os.path.join(second, name), os.path.join(folder, name))
        shutil.rmtree(second)
        os.symlink("nowhere", second)
        mends = {each[9] for each in self.plan_of(folder, *words) if each[1] == "refused"}
        self.expect(f"a link to nothing: {mends}", mends == {"none"})

    def linked_files(self):
        """Bytes behind a link in a log file's place are no tail of the log."""
        folder = os.path.join(self.work, "linked-file")
        self.run(folder, "load", 6, 40)
        os.symlink("/etc/passwd", os.path.join(folder, f"{2:016}.raftlog"))
        kinds = [each[1] for each in self.plan_of(folder)]
        self.expect(f"a link alone is refused: {kinds}", kinds == ["refused"])

    def permissions(self):
        """The owner of a file gets `chmod`, another user a copy; without a right to read there is no mend."""
        if os.geteuid() != 0:
            print("not tried: files of another user (only root can make them)")
            return
        os.chmod(self.work, 0o755)
        user = {"user": NOBODY, "group": NOBODY, "extra_groups": []}
        for name, owner, mode, mend in [
            ("own", NOBODY, 0o400, "chmod"),
            ("own-closed", NOBODY, 0, "chmod"),
            ("others", 0, 0o644, "cp"),
            ("others-closed", 0, 0o600, "none"),
        ]:
            folder = os.path.join(self.work, f"rights-{name}")
            os.mkdir(folder)
            os.chown(folder, NOBODY, NOBODY)
            self.run(folder, "load", 60, 40, **user)
            path = os.path.join(folder, f"{1:016}.raftlog")
            os.chown(path, owner, owner)
            os.chmod(path, mode)
            ran = self.run(folder, "check", **user)
            told = [line for line in ran.stdout.decode().splitlines() if line.startswith("plan ")]
            self.expect(f"{name}: check {ran.returncode}: {ran.stdout} {ran.stderr}", ran.returncode == 5 and len(told) == 1)
            put = self.run(folder, "put", 1, "a", "b", **user)
            same = put.returncode == 1 and all(line.encode() in put.stderr for line in told)
            self.expect(f"{name}: a put: {put}", same)
            mends = [line.rpartition(" mend ")[2] for line in told]
            self.expect(f"{name}: {mends}", all(mend in each for each in mends))
            if mend == "none":
                self.expect(f"{name}: whose it is: {told}", all("its owner is user 0" in line for line in told))
                continue
            for each in mends:
                typed = self.typed(each, **user)
                self.expect(f"{name}: {each}: {typed}", typed.returncode == 0)
            self.expect(f"{name}: then check", self.run(folder, "check", **user).returncode == 0)
            put = self.run(folder, "put", 1, "a", "b", **user)
            keys = self.run(folder, "verify", 60, 40, **user)
            self.expect(f"{name}: and a put: {put} {keys}", put.returncode == 0 and keys.returncode == 0)
