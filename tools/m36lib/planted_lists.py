"""Faults for `docs/check --planted`, each of which docs/check must report.

Each row of `PLANTED` is a file that lists commands, options or statuses, a text that is in it, and
what to put in its place, once. Each row of `PLANTED_WORDS` is a page, what to put at its end, and
what is reported.
"""

HELP = "crates/m36_help/src/lib.rt"
MANUAL = "docs/m36.1"
PAGE = "docs/COMMANDS.md"
COMPLETION = "tools/completion.bash"
WORDS = "crates/m36_top/specs/Words.antt"
NAMES = "crates/m36_status/specs/Names.antt"
TABLE_CODE = "crates/m36_top/src/table.rt"
WORDS_CODE = "crates/m36_top/src/words.rt"
TEXTS = "crates/m36_text/specs/Texts.antt"

PLANTED = (
    # Commands
    (HELP, '("print", "print the object NAME"),', ""),
    (HELP, '"audit",', '"audits",'),
    (MANUAL, ".B m36 make \\fISEED\\fB\n", ""),
    (MANUAL, ".TP\n.B procs\n", ".TP\n.B proc\n"),
    (PAGE, "| `print NAME` | ", "| `list NAME` | "),
    (COMPLETION, "    make\n", ""),
    (COMPLETION, "    bare\n", "    bare\n    boot\n"),
    (WORDS, "--     make SEED\n", ""),
    (WORDS, '(codes "bare", bare)', '(codes "naked", bare)'),
    # Operands
    (HELP, "audit the processes of FILE,", "audit the processes of NAME,"),
    (HELP, "bare image FILE, or over the folder", "bare image FILE"),
    (MANUAL, "access \\fIUSER", "access \\fIFILE"),
    (MANUAL, "debug [\\fIFILE\\fB]", "debug \\fIFILE\\fB"),
    (PAGE, "`procs FILE`", "`procs`"),
    (PAGE, "`debug FILE`, `debug`", "`debug FILE`"),
    (COMPLETION, "alm) choices=$(_m36_names .alm)", "alm) choices=$(_m36_names .bind)"),
    (COMPLETION, "print | debug)", "print)"),
    (WORDS, "--     procs FILE", "--     procs [FILE]"),
    (WORDS, "run g = if is_none g.operand then", "run g = if is_some g.operand then"),
    (WORDS, "access g = if has_no_option g then option_map Access (user_given g)",
     "access g = if has_no_option g then option_map Access (file_given g)"),
    # Options
    (HELP, '.long("unaudited")', '.long("anyway")'),
    (HELP, '.value_name("N")', '.value_name("COUNT")'),
    (HELP, '"these, and procs: run', '"these, procs and alm: run'),
    (HELP, '"run, trace, audit of the folder:', '"run, trace, audit:'),
    (MANUAL, "bare \\fIFILE\\fB [\\-\\-steps \\fIN\\fB]", "bare \\fIFILE\\fB"),
    (MANUAL, '.BI \\-\\-user " USER', '.BI \\-\\-user " NAME'),
    (PAGE, "| `bare`, `run`, `trace` |", "| `run`, `trace` |"),
    (PAGE, "| these, and `procs` |", "| these |"),
    (PAGE, "| `--unaudited` |", "| `--unaudited YES` |"),
    (COMPLETION, 'procs) choices="--unaudited ', 'procs) choices="'),
    (COMPLETION, "--steps | --user) choices=", "--steps) choices="),
    (WORDS, "--     audit [--user USER]\n", "--     audit\n"),
    (WORDS, "if is_none g.steps && is_none g.user", "if is_none g.steps"),
    (WORDS, "audit_command (Some o) (Some user) = None\n", ""),
    # Defaults and ranges
    (HELP, "[default: 100000]", "[default: 10000]"),
    (HELP, "up to 10000000 ", "up to 1000000 "),
    (MANUAL, "without it 100,000.", "without it 10,000."),
    (MANUAL, "at most 10,000,000;", "at most 1,000,000;"),
    (MANUAL, "have 1 to 32 letters", "have 1 to 31 letters"),
    (MANUAL, "has at most 27.", "has at most 28."),
    (MANUAL, "a number of 1 to 18 digits", "a number of 1 to 19 digits"),
    (PAGE, "without it 100,000 ", "without it 10,000 "),
    (PAGE, "one to eight digits, at most 10,000,000", "one to eight digits, at most 1,000,000"),
    (PAGE, "one to eight digits", "one to nine digits"),
    (PAGE, "have 1 to 32 letters", "have 1 to 31 letters"),
    (PAGE, "has at most 27.", "has at most 28."),
    (PAGE, "SEED is one to 18 ", "SEED is one to 19 "),
    (WORDS, "without `--steps` 100,000", "without `--steps` 10,000"),
    (WORDS, "default_steps = 100000\n", "default_steps = 10000\n"),
    (WORDS, "steps_limit = 10000000\n", "steps_limit = 1000000\n"),
    (WORDS, "short_decimal_in 18 0", "short_decimal_in 17 0"),
    (TABLE_CODE, "DEFAULT_STEPS: u32 = 100000;", "DEFAULT_STEPS: u32 = 10000;"),
    (TABLE_CODE, "LONGEST_MADE_NAME: usize = 27;", "LONGEST_MADE_NAME: usize = 28;"),
    (WORDS_CODE, "MOST_STEPS: u64 = 10000000;", "MOST_STEPS: u64 = 1000000;"),
    (TEXTS, "name_limit = 32\n", "name_limit = 31\n"),
    # Statuses
    (HELP, "  7  Steps ", "  9  Steps "),
    (HELP, "  8  NoMemory     no memory is found\n", ""),
    (HELP, "5  AuditNo      the audit fails, so nothing is run", "5  AuditNo      the audit fails"),
    (MANUAL, ".B 5\nAuditNo:", ".B 9\nAuditNo:"),
    (MANUAL, "\nMachineStop:", "\nStopped:"),
    (PAGE, "| 3 | WriteFault |", "| 9 | WriteFault |"),
    (PAGE, "| 8 | NoMemory |", "| 8 | OutOfMemory |"),
    (NAMES, "status_number Steps = 7", "status_number Steps = 9"),
    (NAMES, 'status_name AuditNo = codes "AuditNo"', 'status_name AuditNo = codes "NoAudit"'),
    # The rest of the help
    (HELP, 'USAGE: &str = "m36 COMMAND [FILE', 'USAGE: &str = "m36 COMMAND [IMAGE'),
    (HELP, "Simulate the Honeywell 6180", "Simulate the Honeywell 6080"),
    (HELP, "--user=Smith.Demo.a", "--user=Smith.Demo"),
)

PLANTED_WORDS = (
    ("docs/BOOT.md", "[x](nowhere.md)", "no file nowhere.md"),
    ("docs/BOOT.md", "`docs/none.md`", "no path docs/none.md"),
    ("docs/BOOT.md", "`m36_nothing`", "no crate m36_nothing"),
    ("docs/BOOT.md", "`m36_top:Nowhere`", "no module m36_top:Nowhere"),
    ("docs/BOOT.md", "`m36_top:nowhere`", "no module m36_top:nowhere"),
    ("docs/BOOT.md", "`m36_top::none_here`", "no none_here of m36_top::none_here"),
    ("docs/BOOT.md", "`law_none`", "no law_none of law_none"),
    ("docs/BOOT.md", "clause `no_clause`", "no clause no_clause"),
    ("docs/PROOFS.md", "`Nowhere_at_all`", "no Nowhere_at_all"),
    ("docs/PROOFS.md", "`none.rt`", "no none.rt"),
    ("docs/PROOFS.md", "#### `m36_word`\n\nClauses: `is_read`.", "`m36_word`: no is_read"),
    ("docs/BOOT.md", "```code crates.txt\nm36_nothing:\n```", "not in crates.txt: m36_nothing:"),
)
