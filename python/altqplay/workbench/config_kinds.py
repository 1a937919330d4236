"""Tells what a configuration's text is: an altq.conf, or one that `altqwork import` makes an altq.conf of."""

import re

LINE = {
    "altq": re.compile(r"[ \t\r\[\]]*interface[ \t\r\[\]]+\S"),
    "tc": re.compile(r"[^#]*\b(qdisc|class|filter)\s+(add|del|delete|replace|change|hfsc|parent)\b|\s*qdisc\s"),
    "pf": re.compile(r"\s*(altq|queue|set|pass|match|block|scrub)\s"),
}
XML = re.compile(r"\s*(<\?xml[^>]*\?>\s*)?(<!--.*?-->\s*)*<(pfsense|opnsense)\b", re.DOTALL)
NAMES = {"altq": "an altq.conf", "pf": "a pf.conf", "tc": "lines of tc", "pfsense": "a config.xml of pfSense"}


def kind_of(text):
    """What a text is, by the first line that tells, or None."""
    if XML.match(text):
        return "pfsense"
    for line in text.split("\n"):
        for kind, pattern in LINE.items():
            if pattern.match(line):
                return kind
    return None
