"""The cases of a program of tests, as its stdin and its stdout have them (text_cases says how): for the tools beside this file."""

BAR = " | "
MARGIN = "    "


def cases_of(output):
    """Returns the cases of an output in order: of each the last heading before it, its text as one line, and its answer likewise."""
    found, heading, text, lines = [], None, None, output.splitlines()
    for i, line in enumerate(lines):
        if line.startswith("#"):
            heading = line[1:].strip()
        elif line.startswith(" => "):
            answer = [line[4:]]
            for further in lines[i + 1 :]:
                if not further.startswith(MARGIN):
                    break
                answer.append(further[4:])
            found.append((heading, text, BAR.join(answer)))
            text = None
        elif line.startswith(2 * MARGIN) and text is not None:
            text += line[8:]
        elif line.startswith(MARGIN) and text is not None:
            text += BAR + line[4:]
        elif " => " in line:
            text, answer = line.split(" => ", 1)
            found.append((heading, text, answer))
            text = None
        else:
            text = line
    return found
