"""Scripts line by line, and the replies of the program one by one."""
import re


def lines_of(script):
    """A line ends with its line feed, and at no other byte."""
    return re.findall(rb"[^\n]*\n|[^\n]+", script)


def script_of(transcript):
    """The script of a transcript, without the replies between its lines."""
    return b"".join(line for line in lines_of(transcript) if not line.startswith(b"> "))


def replies_of(text):
    """One of several lines begins with a version alone and ends with a dot."""
    replies, block = [], None
    for line in text.splitlines(keepends=True):
        if block is not None:
            block.append(line)
        elif re.fullmatch(rb"version \d+\n", line):
            block = [line]
        else:
            replies.append(line)
        if block is not None and line == b".\n":
            replies.append(b"".join(block))
            block = None
    if block is not None:
        raise SystemExit(f"a reply without its end: {block}")
    return replies
