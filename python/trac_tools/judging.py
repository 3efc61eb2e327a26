"""How an exercise of the course is judged, and the words for it: `trac course check` says them, and web/assemble puts
them into the page."""

# What a checked program may take: steps, bytes that it prints, and seconds.
STEPS = 10_000_000
PRINTED = 65_536
SECONDS = 60
# Why a run does not do: how it ended, by its status; and `long`, `late`, `other`.
WHY = {
    "3": "it has not ended within {:,} steps: does a form call itself without end?".format(STEPS),
    "4": "it passes a limit: does a form call itself without end, or grow with each call?",
    "5": "it takes too much memory: does a form grow with each call?",
    "long": "it prints more than {:,} bytes".format(PRINTED),
    "late": "it was stopped after {} seconds".format(SECONDS),
    "other": "it prints something else",
}
# Where two texts begin to differ.
WHERE = "they differ from line LINE, character COLUMN on"
