#!/usr/bin/env python3
"""mutate.py [FILE..]: edits the definitions of `written` in one place at a time and says which edits its tables of examples let pass.

It works on a copy of the repository, so the tree stays as it is. An edit that passes is either a gap in the tables or one that means the
same; those known to mean the same are marked SAME with the reason."""
import re
import shutil
import subprocess
import sys
import tempfile
from pathlib import Path

ROOT = Path(__file__).resolve().parent.parent
SPECS = Path("crates/written/specs")
TABLES = {"Examples", "Traps", "NumberedTexts", "Calls", "Pinned", "Runs", "Competing"}

# file: (what stands there, what is put there)
EDITS = {
    "Clauses": [
        ('2 * k + cond negated 1 0', '2 * k + cond negated 0 1'),
        ('eqb (true_count vs ls) 1', 'eqb (true_count vs ls) 2'),
        ('is_uncovered vs ls = eqb (true_count vs ls) 0', 'is_uncovered vs ls = eqb (true_count vs ls) 1'),
        ('(those (λ l. eqb (term_of l) t) ls)', 'ls'),
    ],
    "Reading": [
        ('(goes d)\n    (cond (has (numbered d l (not', '(drops (dropped d))\n    (cond (has (numbered d l (not'),
        ('(drops (dropped d))\n    (cond (not', '(goes d)\n    (cond (not'),
        ('&& leb lim.terms (length d.names)) (stops', '&& ltb lim.terms (length d.names)) (stops'),
        ('cond (leb lim.literals (held d)) (stops', 'cond (ltb lim.literals (held d)) (stops'),
        ('held d = total length d.clauses + length d.line', 'held d = total length d.clauses'),
        ('cond (leb lim.clauses (length d.clauses)) (stops', 'cond (ltb lim.clauses (length d.clauses)) (stops'),
        ('at_token lim d (True n) = drops (dropped d)', 'at_token lim d (True n) = goes d'),
        ('cond (ltb lim.text (length t)) (refused', 'cond (leb lim.text (length t)) (refused'),
        ('next_line t c = line_over t c', 'next_line t c = c'),
        ('next_line t c = line_over t c', 'next_line t c = (scan t c).next'),
        ('stops (fault_at n BlankLine)', 'goes d'),
        ('= stops (fault_at n BlankLine)', '= stops (fault BlankLine)'),
        ('stops (fault_at n BlankLine)', 'drops d'),
        ('names = d.names; clauses = d.clauses; line = [] }', 'names = d.names; clauses = d.clauses; line = d.line }'),
        ('cond (has name names) names (names ++ name ∷ [])', 'names ++ name ∷ []'),
    ],
    "Numerals": [
        ('eqb (get_or t c.at 0) 99', 'eqb (get_or t c.at 0) 67'),
        ('at = suc (rest_at t c.at)', 'at = rest_at t c.at'),
        ('line = suc c.line', 'line = c.line'),
        ('cond (is_number (word_at t v) &&', 'cond '),
        ('ltb (word_end t v) c &&', ''),
        ('is_number (word_at t c) &&', ''),
        ('&& eqb (get_or t (word_end t c) 0) 10', ''),
        ('variables = value_of_digits (word_at t v)', 'variables = value_of_digits (word_at t c)'),
        ('end = word_end t c', 'end = word_end t v'),
        ('begins (bytes "p") (drop at t) &&', ''),
        ('ltb (suc at) k &&', ''),
        ('begins (bytes "cnf") (drop k t) &&', ''),
        ('&& ltb (k + 3) v', ''),
        ('Bool\nis_minus w = eqb (get_or w 0 0) 45', 'Bool\nis_minus w = eqb (get_or w 0 0) 43'),
        ('&& not (is_minus w && eqb (value_of_digits (digits_of w)) 0)', ''),
        ('=\n    let e : ℕ = past is_gap', '=\n    let e : ℕ = past is_blank'),
        ('times 10 (take', 'times 32 (take'),
        ('negated = is_minus w;', 'negated = not (is_minus w);'),
        ('Bad n', 'Bad (suc n)'),
        ('{ at = word_end t c.at; line = c.line }', '{ at = word_end t c.at; line = suc c.line }'),
    ],
    "Numbered": [
        ('name_for (suc k)', 'name_for k'),
        ('turned n (drops d) = on (sum d true n)\nturned', 'turned n (drops d) = on (sum d false n)\nturned'),
        ('cond (leb h.clauses s.ended) (to', 'cond (ltb h.clauses s.ended) (to'),
        ('cond (leb h.clauses s.ended)', 'cond (cond (s.is_dropped || ltb 0 (length s.draft.line)) (leb h.clauses s.ended) false)'),
        ('to (refused (fault_at n ClauseCount))', 'to (refused (fault ClauseCount))'),
        (
            'cond (leb h.clauses s.ended) (to (refused (fault_at n ClauseCount)))\n    (cond s.is_dropped (on (sum s.draft false (suc s.ended)))',
            'cond s.is_dropped (on (sum s.draft false (suc s.ended)))\n    (cond (leb h.clauses s.ended) (to (refused (fault_at n ClauseCount)))',
        ),
        ('s.is_dropped (on (sum s.draft false (suc s.ended)))', 's.is_dropped (on (sum s.draft false s.ended))'),
        ('on (sum s.draft false (suc s.ended)))\n    (turned', 'on (sum s.draft true (suc s.ended)))\n    (turned'),
        ('s.ended)))\n    (turned (suc s.ended) (at_line_end', 's.ended)))\n    (turned s.ended (at_line_end'),
        ('cond (ltb h.variables x.number) (to', 'cond (leb h.variables x.number) (to'),
        ('to (refused (fault_at x.line PastHeader))', 'to (refused (fault PastHeader))'),
        (
            'cond (ltb h.variables x.number) (to (refused (fault_at x.line PastHeader)))\n    (cond (eqb x.number 0) (at_zero lim h s x.line)\n    (cond s.is_dropped (on s)',
            'cond (eqb x.number 0) (at_zero lim h s x.line)\n    (cond s.is_dropped (on s)\n    (cond (ltb h.variables x.number) (to (refused (fault_at x.line PastHeader)))',
        ),
        ('cond s.is_dropped (on s', 'cond false (on s'),
        ('name = name_for x.number;', 'name = name_for (suc x.number);'),
        ('is_open s = s.is_dropped || ltb 0 (length s.draft.line)', 'is_open s = ltb 0 (length s.draft.line)'),
        ('is_open s = s.is_dropped || ltb 0 (length s.draft.line)', 'is_open s = s.is_dropped'),
        ('is_open s || ltb s.ended h.clauses', 'is_open s'),
        ('to (refused (fault_at n ByteNotAllowed))', 'to (refused (fault ByteNotAllowed))'),
        ('cond (ltb lim.terms h.variables) (refused', 'cond (leb lim.terms h.variables) (refused'),
        ('h.variables) (refused (fault_at n TooManyTerms)', 'h.variables) (refused (fault TooManyTerms)'),
        ('= refused (fault_at n HeaderForm)', '= refused (fault HeaderForm)'),
        ('refused (fault HeaderForm)', 'refused (fault_at c.line HeaderForm)'),
        ('at = h.end; line = n }) (begun', 'at = h.end; line = suc n }) (begun'),
        ('from_header lim t (past_comments (length t) t start)', 'from_header lim t start'),
    ],
    "Drawing": [
        ('even_of m y) (choice_of m y', 'even_of m y) (choice_of m (next_of y)'),
        ('(even_of m y) (choice_of m y)\n\n--', '(choice_of m y) (choice_of m y)\n\n--'),
        ('(even_of m y) (choice_of m y)\n\n--', '(even_of m y) (even_of m y)\n\n--'),
        ('cond (eqb o.even 1)', 'cond (eqb o.even 0)'),
        ('start_state n y = state_after y (word_count n)', 'start_state n y = y'),
        ('list_of n (bit_at (draws (word_count n) y))', 'list_of n (bit_at (y ∷ []))'),
    ],
    "Flips": [
        ('set vs t (1 - get_or vs t 0)', 'set vs t 1'),
        ('false_literal vs t = literal_of t (eqb (get_or vs t 0) 1)', 'false_literal vs t = literal_of t (eqb (get_or vs t 0) 0)'),
        ('true_literal vs t = literal_of t (eqb (get_or vs t 0) 0)', 'true_literal vs t = literal_of t (eqb (get_or vs t 0) 1)'),
        ('(set us (place_of c us) (get_or us (length us - 1) 0))', 'us'),
        ('moved_if enter (turned t vs) cs', 'moved_if enter vs cs'),
        ('enter c us = us ++ c ∷ []', 'enter c us = c ∷ us'),
    ],
    "Walk": [
        ('least_of (break_of s l) (map (break_of s) ls)', 'break_of s l'),
        ('one_of o (l ∷ []) y = record { picked = l; state = y }', 'one_of o (l ∷ []) y = chosen_from o (l ∷ []) y'),
        ('eqb d.number 1', 'eqb d.number 0'),
        ('chosen_from o ls d.next.state', 'one_of o ls d.next.state'),
        ('ltb 0 (least_break s ls)', 'ltb 1 (least_break s ls)'),
        ('(one_of o ties d.next.state)\n\n--', '(chosen_from o ls d.next.state)\n\n--'),
        ('generator = start_state (length m.state.file.names)', 'generator ='),
        ('clause_picked o m = chosen_from o', 'clause_picked o m = one_of o'),
        ('generator = p.state; flips = suc', 'generator = p.state; flips ='),
        ('found_or (suc n) (onwards', 'found_or n (onwards'),
        ('held ms (start_values (length m.state.file.names) m.generator)', 'start_values (length m.state.file.names) m.generator'),
        ('(start ms m', '(start [] m'),
        ('free_in ms (get_or m.state.file.clauses p.picked [])', 'get_or m.state.file.clauses p.picked []'),
        ('eqb (length (looked_at ms m (clause_picked o m))) 0', 'false'),
        ('eqb (length (looked_at ms m (clause_picked o m))) 0', 'eqb (length (looked_at ms m (clause_picked o m))) 1'),
        ('generator = (clause_picked o m).state; flips = m.flips }', 'generator = m.generator; flips = m.flips }'),
        ('generator = (clause_picked o m).state; flips = m.flips', 'generator = (clause_picked o m).state; flips = suc m.flips'),
        ('cond (is_stuck o ms m) (stuck_at o m)', 'cond (is_stuck o ms m) (onwards o ms k (stuck_at o m))'),
        ('onwards o ms k (step o ms m)', 'onwards o [] k (step o ms m)'),
        ('walks_from o ms k (suc n) e', 'walks_from o [] k (suc n) e'),
        ('walks_from o ms o.walks 0', 'walks_from o [] o.walks 0'),
    ],
    "Sheet": [
        ('&& leb (length ds) 10', '&& leb (length ds) 11'),
        ('|| not (eqb (get_or ds 0 0) 48)', '|| not (eqb (get_or ds 0 0) 47)'),
        ('ltb (line_length input) (length input) &&', ''),
        ('on 0 input', 'on 1 input'),
        ('(on 1 (drop', '(on 0 (drop'),
        ('on 1 (drop (length whole) input)', 'on 1 input'),
        ('not (begins whole input)', 'not (begins key input)'),
        ('not (begins key input)', 'not (begins whole input)'),
        ('"choice=") (bytes "choice=even\\n") rest', '"choice=") (bytes "choice=even") rest'),
        ('5 (bytes "choice=") (bytes', '5 (bytes "choice") (bytes'),
        ('optional 5', 'optional 4'),
    ],
    "Orders": [
        ('least = 1; most = 4294967295 }', 'least = 0; most = 4294967295 }'),
        ('{ least = 0; most = 1000 }', '{ least = 0; most = 1001 }'),
        ('least = 0; most = 1 }', 'least = 0; most = 2 }'),
        ('least = 0; most = 1 }\n\nabbrev', 'least = 1; most = 1 }\n\nabbrev'),
        ('&& within modes o.even', ''),
    ],
    "Printed": [
        ('cond (eqb v 0) (126', 'cond (eqb v 1) (126'),
        ('cond e.found (decimal (chosen e.last.state)) (bytes "0")', 'decimal (chosen e.last.state)'),
    ],
    "Tables": [
        ('starts = n.clauses + 1;', 'starts = n.clauses;'),
        ('occurrence_starts = 2 * n.terms + 1;', 'occurrence_starts = 2 * n.terms;'),
        ('b + 2 * word_of bs', 'b + 3 * word_of bs'),
        ('cond (has c us) (place_of c us) 0', 'place_of c us'),
        ('starts_from (at + length p) ps', 'starts_from (at + 1) ps'),
        ('new ++ drop (length new) old', 'new'),
        ('leb n (length xs)) (full_sizes', 'leb n (1 + length xs)) (full_sizes'),
    ],
    "Agreement": [
        ('&& ltb 0 n.clauses', ''),
        ('n.terms lim.terms && leb n.clauses', 'n.clauses'),
        ('n.clauses lim.clauses && leb n.literals', 'n.literals'),
        ('&& leb n.literals lim.literals\n    &&', '&& leb n.terms lim.terms\n    &&'),
        ('= not (eqb x 0) && name_bytes 8 x\n\n--', '= name_bytes 8 x\n\n--'),
        ('all is_name s.file.names &&', ''),
        ('&& differ s.file.names', ''),
        ('eqb (get_or t.starts 0 0) 0\n    &&', ''),
        ('c. ltb (get_or t.starts c 0) (get_or', 'c. leb (get_or t.starts c 0) (get_or'),
        ('&& eqb (get_or t.starts n.clauses 0) n.literals', ''),
        ('all (λ l. ltb l (2 * n.terms)) ls &&', ''),
        ('&& differ (map term_of ls)', ''),
        ('u.occurrence_starts (in_use s).occurrence_starts && same u.occurrences', 'u.occurrences'),
        ('&& same u.occurrences (in_use s).occurrences', ''),
        ('u.trues (in_use s).trues && same u.breaks', 'u.breaks'),
        ('same u.breaks (in_use s).breaks\n    &&', ''),
        ('&& eqb n.uncovered (length (uncovered_in s.values s.file.clauses))', ''),
        ('eqb (times c s.uncovered) 1 && ', ''),
        ('&& eqb (get_or u.places c 0) (place_of c s.uncovered)', ''),
        ('every (all (λ x. eqb x 0)) (each drop (sizes n) (each take (full_sizes lim) t))\n    &&', ''),
        ('every (all (λ x. eqb x 0)) (each drop (sizes n) (each take (full_sizes lim) t))', 'every (all (λ x. eqb x 0)) (each drop (sizes n) t)'),
        ('same u.values (in_use s).values\n    &&', ''),
        ('&& all (λ c. has c s.uncovered || eqb (get_or u.places c 0) 0) (below n.clauses)', ''),
    ],
    "Marks": [
        ('is_free ms t = eqb (get_or ms t 0) 0', 'is_free ms t = eqb (get_or ms t 0) 1'),
        ('is_free ms t = eqb (get_or ms t 0) 0', 'is_free ms t = leb (get_or ms t 0) 1'),
        ('those (λ l. is_free ms (term_of l)) ls', 'ls'),
        ('is_free ms (term_of l)', 'is_free ms l'),
        ('cond (eqb m 0) v', 'cond (eqb m 0) 0'),
        ('cond (eqb m 1) 0 1', 'cond (eqb m 1) 1 0'),
        ('cond (eqb m 1) 0 1', 'cond (eqb m 1) 0 v'),
        ('cond (eqb m 1) 0 1', 'cond (eqb m 1) v 1'),
        ('list_of (length vs) (λ t. held_at (get_or ms t 0) (get_or vs t 0))', 'vs'),
        ('leb lim.terms (length ms)\n\nunfoldable', 'eqb lim.terms (length ms)\n\nunfoldable'),
        ('= leb lim.terms (length ms)\n\nunfoldable', '= leb lim.clauses (length ms)\n\nunfoldable'),
        ('are_full lim t && marks_full lim ms', 'are_full lim t'),
        ('are_full lim t && marks_full lim ms', 'marks_full lim ms'),
        ('over (zeros lim.terms) ms', 'ms'),
        ('over (zeros lim.terms)', 'zeros lim.te'),
        ('over (zeros lim.terms) ms', 'zeros (length ms)'),
        ('= over (zeros lim.terms) ms\n\n--', '= over (zeros lim.clauses) ms\n\n--'),
        ('leb (get_or ms t 0) 2 &&', ''),
        ('leb (get_or ms t 0) 2', 'leb (get_or ms t 0) 3'),
        ('&& eqb (get_or vs t 0) (held_at (get_or ms t 0) (get_or vs t 0))', ''),
        ('(below (length vs))\n\n--', '(below (length ms))\n\n--'),
        ('drop n.terms (take lim.terms ms)', 'drop n.terms ms'),
        ('0) (drop n.terms (take lim.terms ms))\n\n--', '0) (drop n.clauses (take lim.terms ms))\n\n--'),
        ('drop n.terms (take lim.terms ms)', 'take lim.terms ms'),
        ('0) (drop n.terms (take lim.terms ms))\n\n--', '0) (drop n.terms (take lim.clauses ms))\n\n--'),
        ('agree lim n t &&', ''),
        ('marks_hold ms (state_in n t).values && marks_rest', 'marks_rest'),
        ('&& marks_rest lim n ms', ''),
    ],
    "Outcomes": [
        ('tables = holding lim (as_read f) t; marks = unmarked lim ms }', 'tables = holding lim (as_read f) t; marks = ms }'),
        ('tables = cleared lim t; marks = unmarked lim ms }', 'tables = t; marks = unmarked lim ms }'),
        ('tables = cleared lim t; marks = unmarked lim ms }', 'tables = cleared lim t; marks = ms }'),
        ('tables = holding lim e.last.state t; marks = ms }\n\nunfoldable', 'tables = holding lim e.last.state t; marks = unmarked lim ms }\n\nunfoldable'),
        ('walk_over o ms (file_in n t)', 'walk_over o [] (file_in n t)'),
        ('tables = holding lim s t; marks = ms }\n\nunfoldable', 'tables = holding lim s t; marks = unmarked lim ms }\n\nunfoldable'),
        ('not (all (is_free ms) ts)', 'not (all (is_free []) ts)'),
        ('flips_refused n t ms PinnedTerm)\n    (flips_leave', 'flips_refused n t ms UnknownTerm)\n    (flips_leave'),
        (
            'cond (not (all (λ v. ltb v n.terms) ts)) (flips_refused n t ms UnknownTerm)\n    (cond (not (all (is_free ms) ts)) (flips_refused n t ms PinnedTerm)\n    (flips_leave',
            'cond (not (all (is_free ms) ts)) (flips_refused n t ms PinnedTerm)\n    (cond (not (all (λ v. ltb v n.terms) ts)) (flips_refused n t ms UnknownTerm)\n    (flips_leave',
        ),
        (
            'cond (not (full_marked lim t ms)) (refused TableTooShort)\n    (cond (not (agree_marked lim n t ms)) (refused TablesDisagree)\n    (cond (not (ltb',
            'cond (not (agree_marked lim n t ms)) (refused TablesDisagree)\n    (cond (not (full_marked lim t ms)) (refused TableTooShort)\n    (cond (not (ltb',
        ),
        (
            '(cond (not (agree_marked lim n t ms)) (refused TablesDisagree)\n    (cond (not (ltb k n.terms)) (refused UnknownTerm) passed)',
            '(cond (not (ltb k n.terms)) (refused UnknownTerm)\n    (cond (not (agree_marked lim n t ms)) (refused TablesDisagree) passed)',
        ),
        ('not (ltb k n.terms)) (refused', 'not (ltb k lim.terms)) (refused'),
        ('cond (eqb v 0) 0 1', 'cond (eqb v 1) 1 0'),
        ('cond (eqb v 0) 0 1', 'v'),
        ('cond (eqb (get_or s.values k 0) v) [] (k ∷ [])', 'k ∷ []'),
        ('cond (eqb (get_or s.values k 0) v) [] (k ∷ [])', '[]'),
        ('cond (eqb (get_or s.values k 0) v) [] (k ∷ [])', 'cond (ltb (get_or s.values k 0) v) (k ∷ []) []'),
        ('cond (eqb (get_or s.values k 0) v) [] (k ∷ [])', 'cond (ltb v (get_or s.values k 0)) (k ∷ []) []'),
        ('set ms k (1 + value_asked v)', 'ms'),
        ('set ms k (1 + value_asked v)', 'set ms k (2 + value_asked v)'),
        ('flips_for k (value_asked v)', 'flips_for k v'),
        ('set ms k 0', 'ms'),
        ('set ms k 0', 'unmarked lim ms'),
        (
            'cond (ltb lim.list (length ts)) (flips_refused n t ms ListTooLong)\n    (cond (not (agree_marked lim n t ms)) (flips_refused n t ms TablesDisagree',
            'cond (not (agree_marked lim n t ms)) (flips_refused n t ms TablesDisagree)\n    (cond (ltb lim.list (length ts)) (flips_refused n t ms ListTooLong',
        ),
        (
            'cond (not (in_range o)) (walk_refused n t ms OutOfRange)\n    (cond (not (agree_marked lim n t ms)) (walk_refused n t ms TablesDisagree)\n    (walk_leaves',
            'cond (not (agree_marked lim n t ms)) (walk_refused n t ms TablesDisagree)\n    (cond (not (in_range o)) (walk_refused n t ms OutOfRange)\n    (walk_leaves',
        ),
        ('cond (ltb lim.list (length ts))', 'cond (ltb (length ts) lim.list)'),
        ('(λ v. ltb v n.terms) ts', '(λ v. ltb v lim.terms) ts'),
    ],
    "Program": [
        ('marks_after lim ms (unbegun a) = ms\nmarks_after', 'marks_after lim ms (unbegun a) = unmarked lim ms\nmarks_after'),
        ('marks_after lim ms (unread e) = unmarked lim ms', 'marks_after lim ms (unread e) = ms'),
        ('marks_after lim ms (walked r) = unmarked lim ms', 'marks_after lim ms (walked r) = ms'),
        ('not (full_marked lim t ms) ||', ''),
        ('marks = ms; buffer = b })\n    (ran_as', 'marks = unmarked lim ms; buffer = b })\n    (ran_as'),
        ('|| ltb (length b) (report_size lim)', ''),
        ('= 10 * lim.terms + 64', '= 10 * lim.terms + 63'),
    ],
}

# edits that mean the same, with the reason
SAME = {
    ("Numerals", "ltb (word_end t v) c"): "where no blank stands after V no second word does",
    ("Agreement", "eqb (get_or t.starts 0 0) 0"): "the occurrences are as many as the literals, so none stands before the first start",
    ("Agreement", "eqb (get_or t.starts n.clauses 0) n.literals"): "the occurrences are as many as the literals",
    ("Agreement", "all (λ l. ltb l (2 * n.terms)) ls"): "a literal of no term has no occurrence",
    ("Agreement", "eqb (times c s.uncovered) 1"): "as many are listed as are uncovered, each at its own place",
}


def errors(copy):
    """The names of the files in which the check finds an error; none where the crate is proved."""
    run = subprocess.run(["rt", "check"], cwd=copy / "crates/written", capture_output=True, text=True, errors="replace")
    said = run.stdout + run.stderr
    verdicts = re.findall(r"logic=(\S+)", said)  # the last is of `written` itself: what it stands on is proved before it where need be
    return [] if verdicts[-1:] == ["proved"] else re.findall(r"specs/(\w+)\.antt:\d+:\d+: error", said) or ["?"]


def same(name, old, new):
    for (file, part), why in SAME.items():
        if file == name and (part == new or part in old and part not in new):
            return "same: " + why
    return "PASSES"


def judge(copy, name, old, new):
    path = copy / SPECS / f"{name}.antt"
    text = path.read_text()
    if text.count(old) != 1:
        return "UNFIT (stands %d times)" % text.count(old)
    path.write_text(text.replace(old, new))
    try:
        found = errors(copy)
        if not found:
            return same(name, old, new)
        return "refused by " + found[0] if found[0] in TABLES else "UNFIT (error in %s)" % found[0]
    finally:
        path.write_text(text)


def main():
    chosen = sys.argv[1:] or list(EDITS)
    tally = {}
    with tempfile.TemporaryDirectory() as place:
        copy = Path(place) / "copy"
        shutil.copytree(ROOT, copy, ignore=shutil.ignore_patterns(".git", "target", "out", "must-fail"))
        if found := errors(copy):
            sys.exit("mutate.py: with no edit at all `written` is not proved: error in " + found[0])
        for name in chosen:
            for old, new in EDITS[name]:
                verdict = judge(copy, name, old, new)
                kind = verdict.split()[0].rstrip(":")
                tally[kind] = tally.get(kind, 0) + 1
                print(f"{name}: {old!r} -> {new!r}: {verdict}", flush=True)
    print(", ".join(f"{n} {v}" for v, n in sorted(tally.items())))
    return 1 if "PASSES" in tally or "UNFIT" in tally else 0


if __name__ == "__main__":
    sys.exit(main())
