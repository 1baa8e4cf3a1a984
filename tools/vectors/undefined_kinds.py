"""Files whose definitions do not exist yet: no line of them is checked."""

REASONS = {
    "script_limits": "too long for a lemma",
}

UNCHECKED = {file: lambda case, reason=reason: reason for file, reason in REASONS.items()}

KINDS = {}
