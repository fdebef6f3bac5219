#!/usr/bin/env python3
"""Respells the repository's own definitions and lemmas as today's Rattle spells them: snake case for
functions, fields, constructors and lemmas; types, facts and modules stay in upper camel case.

    tools/respell.py [--list]

Run once at the top of a checkout that port.py has turned. It renames whole tokens in crates/ (in
comments only what stands between backticks), and prints each renaming with --list.
"""
import glob
import os
import re
import sys

TOKEN = re.compile(r"[A-Za-z_][A-Za-z0-9_'₀₁₂₃₄₅₆₇₈₉-]*")
DECL = re.compile(
    r"^\s*(?:(?:pub|abbrev|unfoldable)\s+)*([A-Za-z_][A-Za-z0-9_'₀₁₂₃₄₅₆₇₈₉-]*(?:\s+[A-Za-z_][A-Za-z0-9_'₀₁₂₃₄₅₆₇₈₉-]*)*)\s*:\s"
)
RULESET = re.compile(r"^\s*(?:pub\s+)?ruleset\s+(\S+)\s*=")

# old name (as port.py leaves it) -> new name, where the rule alone would make two names one, or a tactic's word
OTHERWISE = {
    # the arithmetic's definitions; the script of lib.rs has lib.rs's own names
    "decodeTimeout": "decoded_timeout",
    "encodeTimeout": "encoded_timeout",
    "decodeVcselPeriod": "decoded_vcsel_period",
    "encodeVcselPeriod": "encoded_vcsel_period",
    "calcMacroPeriod": "macro_period",
    "timeoutMclksToMicroseconds": "mclks_to_microseconds",
    "timeoutMicrosecondsToMclks": "microseconds_to_mclks",
    # the calls' lists of instructions
    "whoAmI": "who_am_i_call",
    "setAddress": "set_address_call",
    "startContinuous": "start_continuous_call",
    "stopContinuous": "stop_continuous_call",
    "readRangeMm": "read_range_mm_call",
    "readRangeContinuous": "read_range_continuous_call",
    "readRangeSingle": "read_range_single_call",
    "setBudget": "set_budget_call",
    "setThresholds": "set_thresholds_call",
    "getThresholds": "get_thresholds_call",
    "setGpioConfig": "set_gpio_config_call",
    "clearInterruptStatus": "clear_interrupt_status_call",
    "setSignalRateLimit": "set_signal_rate_limit_call",
    "getBudget": "get_budget_call",
    # the driver's fields
    "withAddress": "with_driver_address",
    "withBudget": "with_driver_budget",
    # `first_of` is a tactic
    "first_of": "first_match",
    "first-of": "first_match_lem",
    "firstOut": "first_transfer_out",
    "idleAt": "idle_at_step",
    "ill-formed": "ill_formed_session",
    "is-session": "is_a_session",
    "not-up": "while_not_up",
    "fields-of": "fields_shown",
    # fields of a claim beside the lists that they speak of
    "bring-ups": "bring_ups_agree",
    "in_use": "in_use_agrees",
    "failed-bring-ups": "failed_bring_ups_agree",
    "failed-ranges": "failed_ranges_agree",
    "failed-calls": "failed_calls_agree",
    "unset-budgets": "unset_budgets_agree",
    "broken-bring-ups": "broken_bring_ups_agree",
    "at-once": "at_once_agree",
    "random-bring-ups": "random_bring_ups_agree",
    "in_order": "in_their_order",
    "decode-0FFF": "decode_0FFF",
    "whoAmIFails": "who_am_i_fails",
    # lemmas that would have their function's name
    "all-zero": "all_zero_lem",
    "as-rust": "as_rust_lem",
    "by_code": "by_code_lem",
    "by_place": "by_place_lem",
    "calls-of": "calls_of_lem",
    "in-range": "in_range_lem",
    "long-at": "long_at_lem",
    "of-waiting": "of_waiting_lem",
    "on-ops": "on_ops_lem",
    "rate-of": "rate_of_lem",
    "replies-of": "replies_of_lem",
    "same_bool": "same_bool_lem",
    "same-on": "same_on_lem",
    "zero-from": "zero_from_lem",
    "is-nan": "is_nan_lem",
    "of-fields": "of_fields_lem",
    "idle-at": "idle_at",
}


def snake(name):
    if name in OTHERWISE:
        return OTHERWISE[name]
    if name[0].isupper() and not re.match(r"^[A-Z0-9]+(-[A-Za-z0-9]+)+$", name):
        return name
    name = re.sub(r"(?<=[a-z0-9])([A-Z])", lambda m: "_" + m.group(1).lower(), name)
    return name.replace("-", "_")


# variables, names of an import, and names with parameters before their type
LOCALS = """
    cond-case and-byte-is or-byte-is firstSent historyCounts
    ext-sup-hv final-range-byte final-range-mclks final-range-pclks final-range-timeout-mclks final-range-whole
    final-range-word final-us first-spad-to-enable high-mm high-raw high-reg low-mm low-raw ls-byte ms-byte msrc-byte
    msrc-dss-tcc-mclks msrc-us new-address osc-calibrate-value period-millis pre-range-byte pre-range-pclks
    pre-range-word pre-us range-err ref-spad-map register-value sequence-config spad-type-is-aperture spads-enabled
    timeout-mclks vcsel-period-pclks vhv-init-byte write-err
""".split()

# names that functions of src/ have too: they stay where those are meant
SHARED = {n for n in OTHERWISE if re.fullmatch(r"[a-z0-9_]+", n)}


def files():
    out = []
    for pattern in ("crates/*/specs/**/*.antt", "crates/*/proofs/**/*.antt"):
        out += glob.glob(pattern, recursive=True)
    return sorted(f for f in out if "/out/" not in f)


WALKS = ("Proof.antt", "Invariants.antt", "Answers.antt")


def declared():
    names = {}
    for f in files():
        if os.path.basename(f) in WALKS:
            continue
        for line in open(f):
            if line.lstrip().startswith("--"):
                continue
            m = RULESET.match(line) or DECL.match(line)
            if m:
                for n in m.group(1).split():
                    names.setdefault(n, set()).add(f)
    return names


def turn_code(text, table):
    return TOKEN.sub(lambda m: table.get(m.group(0), m.group(0)), text)


def turn_ticks(text, table):
    return re.sub(r"`[^`]*`", lambda m: turn_code(m.group(0), table), text)


def turn(text, table, mark):
    lines = []
    for line in text.split("\n"):
        at = line.find(mark)
        if at < 0 or (mark == "--" and at > 0 and line[at - 1] not in " \t"):
            lines.append(turn_code(line, table))
        else:
            lines.append(turn_code(line[:at], table) + turn_ticks(line[at:], table))
    return "\n".join(lines)


def turn_contracts(text, table):
    """Only ghost imports, clauses and what stands between backticks in comments."""
    out = []
    at = 0
    start = re.compile(r"(ghost use [^;]*;)|(\b(?:requires|ensures|ghost)\b\*?[^{;\n]*\{)|(//[^\n]*)")
    while True:
        m = start.search(text, at)
        if not m:
            out.append(text[at:])
            return "".join(out)
        out.append(text[at : m.start()])
        if m.group(3):
            out.append(turn_ticks(m.group(0), table))
            at = m.end()
        elif m.group(1):
            out.append(turn_code(m.group(0), table))
            at = m.end()
        else:
            depth, end = 1, m.end()
            while depth:
                depth += {"{": 1, "}": -1}.get(text[end], 0)
                end += 1
            out.append(turn_code(text[m.start() : end], table))
            at = end


def turn_edit(text, table):
    """An edit's texts: all of one of specs/ or proofs/, of src/ the contracts alone."""
    lines = text.split("\n")
    antt = any(l.startswith("file:") and l.endswith(".antt") for l in lines)
    for i, l in enumerate(lines):
        if l.startswith(("old:", "new:")) and (antt or "ensures" in l or "requires" in l):
            lines[i] = l[:4] + turn_code(l[4:], table)
    return "\n".join(lines)


def main():
    names = declared()
    table = {n: snake(n) for n in list(names) + LOCALS if snake(n) != n}
    if "--list" in sys.argv:
        for n in sorted(table):
            print(n, table[n])
        return
    unshared = {n: m for n, m in table.items() if n not in SHARED}
    turned = {}
    for f in files():
        walk = os.path.basename(f) in WALKS
        turned[f] = turn(open(f).read(), unshared if walk else table, "--")
    for f in glob.glob("crates/*/src/**/*.rt", recursive=True):
        turned[f] = turn_contracts(open(f).read(), table)
    for f in glob.glob("crates/*/must-fail/*.edit"):
        turned[f] = turn_edit(open(f).read(), table)
    for f in ["README.md"] + glob.glob("docs/**/*.md", recursive=True) + glob.glob("*/README.md"):
        turned[f] = turn_ticks(open(f).read(), table)
    for f, new in turned.items():
        if new != open(f).read():
            open(f, "w").write(new)


if __name__ == "__main__":
    main()
