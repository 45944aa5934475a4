-- The tables of questions: what settled days have. Dates are texts as 2026-12-14, amounts are whole allowances or tonnes.
CREATE TABLE days (
  date TEXT PRIMARY KEY,
  first_record INTEGER NOT NULL,
  next_record INTEGER NOT NULL,
  current_period INTEGER NOT NULL,
  accounts INTEGER NOT NULL,
  instructions INTEGER NOT NULL,
  -- SHA-256 of the day text and of its report, unpacked: so the same day is not added twice
  day_sum TEXT NOT NULL,
  report_sum TEXT NOT NULL
) STRICT;
CREATE TABLE instructions (
  record INTEGER PRIMARY KEY,
  date TEXT NOT NULL REFERENCES days,
  proposed TEXT NOT NULL,
  proposer INTEGER NOT NULL,
  approver INTEGER,
  act TEXT NOT NULL,
  -- FROM, or the one account that the act names
  account INTEGER NOT NULL,
  other INTEGER,
  kind TEXT,
  amount INTEGER,
  reversed_record INTEGER,
  status TEXT,
  year INTEGER,
  tonnes INTEGER
) STRICT;
CREATE TABLE shares (
  record INTEGER NOT NULL REFERENCES instructions,
  place INTEGER NOT NULL,
  receiver INTEGER NOT NULL,
  amount INTEGER NOT NULL,
  PRIMARY KEY (record, place)
) STRICT, WITHOUT ROWID;
CREATE TABLE log (
  record INTEGER PRIMARY KEY REFERENCES instructions,
  is_done INTEGER NOT NULL CHECK (is_done IN (0, 1)),
  -- the check that refused it
  code INTEGER,
  name TEXT,
  -- what an assessment determined
  figure INTEGER
) STRICT;
-- What each account of an instruction that was done held after it
CREATE TABLE held (
  record INTEGER NOT NULL REFERENCES instructions,
  account INTEGER NOT NULL,
  general INTEGER NOT NULL,
  aviation INTEGER NOT NULL,
  PRIMARY KEY (record, account)
) STRICT, WITHOUT ROWID;
-- What all accounts together held, had surrendered and had deleted after a day
CREATE TABLE totals (
  date TEXT NOT NULL REFERENCES days,
  kind TEXT NOT NULL,
  held INTEGER NOT NULL,
  surrendered INTEGER NOT NULL,
  deleted INTEGER NOT NULL,
  PRIMARY KEY (date, kind)
) STRICT, WITHOUT ROWID;
-- What an account was after a day: a row only for days on which something of it changed
CREATE TABLE accounts_by_day (
  account INTEGER NOT NULL,
  date TEXT NOT NULL REFERENCES days,
  kind TEXT NOT NULL,
  holder INTEGER NOT NULL,
  status TEXT NOT NULL,
  outside INTEGER NOT NULL,
  waiver INTEGER NOT NULL,
  correction INTEGER NOT NULL,
  general INTEGER NOT NULL,
  aviation INTEGER NOT NULL,
  PRIMARY KEY (account, date)
) STRICT, WITHOUT ROWID;
-- The correction factors of later periods: that of period 1 stands in accounts_by_day
CREATE TABLE corrections (
  account INTEGER NOT NULL, date TEXT NOT NULL, period INTEGER NOT NULL, factor INTEGER NOT NULL,
  PRIMARY KEY (account, date, period), FOREIGN KEY (account, date) REFERENCES accounts_by_day
) STRICT, WITHOUT ROWID;
CREATE TABLE users (
  account INTEGER NOT NULL, date TEXT NOT NULL, user INTEGER NOT NULL, right TEXT NOT NULL,
  PRIMARY KEY (account, date, user), FOREIGN KEY (account, date) REFERENCES accounts_by_day
) STRICT, WITHOUT ROWID;
CREATE TABLE trusted (
  account INTEGER NOT NULL, date TEXT NOT NULL, other INTEGER NOT NULL, effective TEXT NOT NULL,
  PRIMARY KEY (account, date, other), FOREIGN KEY (account, date) REFERENCES accounts_by_day
) STRICT, WITHOUT ROWID;
CREATE TABLE surrenders (
  account INTEGER NOT NULL, date TEXT NOT NULL, record INTEGER NOT NULL, what TEXT NOT NULL, kind TEXT NOT NULL,
  amount INTEGER NOT NULL, made TEXT NOT NULL, is_reversed INTEGER NOT NULL, period INTEGER,
  PRIMARY KEY (account, date, record), FOREIGN KEY (account, date) REFERENCES accounts_by_day
) STRICT, WITHOUT ROWID;
CREATE TABLE emissions (
  account INTEGER NOT NULL, date TEXT NOT NULL, year INTEGER NOT NULL, tonnes INTEGER NOT NULL,
  PRIMARY KEY (account, date, year), FOREIGN KEY (account, date) REFERENCES accounts_by_day
) STRICT, WITHOUT ROWID;
CREATE TABLE figures (
  account INTEGER NOT NULL, date TEXT NOT NULL, year INTEGER NOT NULL, figure INTEGER NOT NULL,
  PRIMARY KEY (account, date, year), FOREIGN KEY (account, date) REFERENCES accounts_by_day
) STRICT, WITHOUT ROWID;
-- What people changed between the day before and this one, row by row: '-' a row that went, '+' one that came
CREATE TABLE hand_changes (
  date TEXT NOT NULL REFERENCES days,
  place INTEGER NOT NULL,
  -- nothing: a row of the rules
  account INTEGER,
  sign TEXT NOT NULL CHECK (sign IN ('-', '+')),
  text TEXT NOT NULL,
  PRIMARY KEY (date, place)
) STRICT, WITHOUT ROWID;
CREATE INDEX instructions_by_account ON instructions (account, date);
CREATE INDEX instructions_by_other ON instructions (other) WHERE other IS NOT NULL;
CREATE INDEX instructions_by_date ON instructions (date);
CREATE INDEX shares_by_receiver ON shares (receiver);
CREATE INDEX log_by_name ON log (name);
CREATE INDEX hand_changes_by_account ON hand_changes (account, date);
CREATE INDEX accounts_by_holder ON accounts_by_day (holder);
-- The holdings of each account on each settled day, in words: select .. from holdings_on where date = '2026-12-14'
CREATE VIEW holdings_on AS
  SELECT days.date AS date, now.account AS account, now.kind AS account_kind, now.holder AS holder, now.status AS status,
    now.general AS general_held, now.aviation AS aviation_held
  FROM days JOIN accounts_by_day AS now
    ON now.date = (SELECT max(date) FROM accounts_by_day WHERE account = now.account AND date <= days.date);
