"""Nothing is used that Chromium 105, Firefox 121 or Safari 16.4 lack, but where the page goes on without it; and no
part is long, or has long lines."""
import glob
import os
import re

from webpage.pages import TOP, check

# What later browsers alone have, or what Safari has in part.
LATER = {
    "js": (r"\bscheduler\b|OffscreenCanvas|requestIdleCallback|checkVisibility|withResolvers|fromAsync|[gG]roupBy\("
           r"|\.to(Sorted|Spliced|Reversed)\(|\.with\(\d|isWellFormed|startViewTransition|[sg]etHTML|moveBefore"
           r"|showPopover|navigation\.|\.(union|difference|isSubsetOf)\(|AbortSignal\.any"
           r"|Intl\.(Segmenter|DurationFormat)|Temporal\.|import .* with|/[gimsuy]*v[gimsuy]*\.(exec|test)"
           r"|Uint8Array\.from(Base64|Hex)|\.values\(\)\.(map|filter|some)\("
           r"|Promise\.try|RegExp\.escape|\busing \w+ ="),
    "css": (r"field-sizing|@scope|@starting-style|@property|@container|:popover-open|anchor\(|text-wrap: pretty"
            r"|light-dark\(|interpolate-size|(^|[{;] *)&|calc-size|content-visibility|round\(|\bmod\("
            r"|text-decoration: \w[\w-]* [^;}]"
            r"|(?<!-webkit-)(?<!-webkit-user-select: none; )user-select"),
}


# The most lines of a part, and the most columns of a line.
MOST_LINES, MOST_COLUMNS = 300, 120


def check_features() -> None:
    """Each part of the page, and of what tries its module, line by line."""
    for path in sorted(glob.glob(os.path.join(TOP, "web", "*")) + glob.glob(os.path.join(TOP, "tests", "web", "*"))):
        name = os.path.relpath(path, TOP)
        with open(path, encoding="utf-8") as part:
            lines = part.read().split("\n")
        long = [number for number, line in enumerate(lines, 1) if len(line) > MOST_COLUMNS]
        check(not long, "{}: lines of at most {} columns, and not {}".format(name, MOST_COLUMNS, long))
        pattern = LATER.get(name.rsplit(".", 1)[-1])
        if not pattern:
            continue
        found = [(number, line.strip()[:80]) for number, line in enumerate(lines, 1) if re.search(pattern, line)]
        check(len(lines) - 1 <= MOST_LINES, "{} has {} lines".format(name, len(lines) - 1))
        check(not found, "{}: later browsers alone have this: {}".format(name, found))
