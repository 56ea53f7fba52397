#!/usr/bin/env python3
"""The sending end of a port can be sent in a message, and the receiving end can't: that doesn't compile.

Usage, at the top of the repository: tests/must_not_compile.py

The gate has no form for a test that must not compile, so this one stands outside of it. It copies the
crates below ch_typed into a folder of its own, adds a crate that packs one end of a port, and asks
`rt try` whether that compiles. It ends with 0 where the sending end does, and the receiving end is
refused as a type that isn't `Typed`.
"""
import pathlib
import shutil
import subprocess
import sys
import tempfile

TOP = pathlib.Path(__file__).resolve().parent.parent
BELOW = ["ch_base", "ch_ident", "ch_mail", "ch_typed"]
SOURCE = """//! An end of a port, packed.
#![tactic(auto)]

#[cfg(test)]
mod packed {
    use ch_base::Address;
    use ch_ident::ProcessId;
    use ch_mail::Mail;
    use ch_typed::{ReceivePort, SendPort, channel, pack};
    use std::test::Fail;

    #[test]
    fn packs_an_end(rt: HostRuntime) -> Result<(), Fail> {
        let mut mail = Mail::new(rt.alloc());
        mail.make()?;
        let own = ProcessId {
            node: Address::read(rt.alloc(), b"h:1:0")?,
            unique: 7,
            counter: 0,
        };
        let (_send, _receive): (SendPort<u32>, ReceivePort<u32>) =
            channel(rt.alloc(), &mut mail, &own)?;
        let _message = pack(rt.alloc(), &END)?;
        Ok(())
    }
}
"""


def made(folder):
    """A repository of the crates below, and of one that is still to be written."""
    lines = [
        line
        for line in (TOP / "crates.txt").read_text().splitlines()
        if line.partition(":")[0] in BELOW
    ]
    lines.append("packed: " + " ".join(BELOW))
    (folder / "crates.txt").write_text("\n".join(lines) + "\n")
    for name in BELOW:
        shutil.copytree(
            TOP / "crates" / name,
            folder / "crates" / name,
            ignore=shutil.ignore_patterns("out"),
        )
    (folder / "crates" / "packed" / "src").mkdir(parents=True)


def tried(folder, end):
    """Whether a test that packs this end compiles and passes, and what was said."""
    crate = folder / "crates" / "packed"
    (crate / "src" / "lib.rt").write_text(SOURCE.replace("END", end))
    run = subprocess.run(
        ["rt", "try", "--test"], cwd=crate, capture_output=True, text=True
    )
    return run.returncode == 0, run.stdout + run.stderr


def main():
    with tempfile.TemporaryDirectory() as name:
        folder = pathlib.Path(name)
        made(folder)
        sends, told = tried(folder, "_send")
        if not sends:
            print(told, "the sending end isn't packed", sep="\n")
            return 1
        packs, told = tried(folder, "_receive")
        if packs or "`ReceivePort<u32>: Typed` is not satisfied" not in told:
            print(told, "the receiving end isn't refused for its type", sep="\n")
            return 1
    print("ok: a send port is packed, and a receive port doesn't compile")
    return 0


if __name__ == "__main__":
    sys.exit(main())
