"""The bodies of the scripts with stored replies, in examples/ and transcripts/."""
import pathlib
import subprocess

from replies import lines_of, replies_of, script_of

TOP = pathlib.Path(__file__).resolve().parent.parent
PROGRAM = str(TOP / "crates/adr/out/adr")


def accepted_edits():
    """The edits of those scripts whose bodies are accepted as objects of their kind, as kind, id and body, each body once."""
    edits = {}
    scripts = [*TOP.glob("examples/*.adr"), *TOP.glob("transcripts/*/*.txt")]
    for path in sorted(scripts):
        script = script_of(path.read_bytes())
        told = subprocess.run([PROGRAM, "run"], input=script, capture_output=True, check=True, timeout=600).stdout
        lines, replies = lines_of(script), replies_of(told)
        if len(lines) != len(replies):
            raise SystemExit(f"{path}: {len(replies)} replies to {len(lines)} lines")
        for line, reply in zip(lines, replies):
            words = line.strip().split(b" ", 5)
            if reply.startswith(b"ok ") and len(words) == 6:
                edits.setdefault((words[3], words[5]), words[4])
    if not edits:
        raise SystemExit("no stored script has an edit that is accepted")
    return [(kind, name, body) for (kind, body), name in edits.items()]
