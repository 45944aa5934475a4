-- The file of a folder of days: what people gave and what days became, and who did what. What questions ask of settled
-- days stands in the tables of daybook.sql. Everything is only added: an event stays as it is.

-- A text by the SHA-256 of its bytes, packed by zlib. Equal texts are kept once. (Its rows are long: without row numbers
-- each search would read some of them whole.)
CREATE TABLE texts (
  sum TEXT NOT NULL PRIMARY KEY CHECK (length(sum) = 64),
  size INTEGER NOT NULL,
  packed BLOB NOT NULL
) STRICT;

-- What was done. LINE is the SHA-256 of json_array(before, what, at, .., people): of all columns but id and line, in
-- their order. So each event has the sum of the one before it.
CREATE TABLE events (
  id INTEGER PRIMARY KEY,
  -- the line of the event before; of the first one, nothing
  before TEXT NOT NULL UNIQUE,
  what TEXT NOT NULL CHECK (what IN (
    'handed',    -- COUNT things of a KIND were handed in, from the place START on: TEXT, whose name was NAME
    'source',    -- what the rows of the event OF were made of: TEXT, a table or a mapping
    'taken',     -- what stands at the place START of the event OF was taken back
    'asked',     -- a command, KIND, of the day DATE waits for another login; NAME has its words, SUM what it gives
    'approved',  -- a login approves what has the sum SUM
    'filed',     -- the day DATE was settled: TEXT, REPORT, and what waited before (WAITING) and waits behind it (WAITS)
    'undone',    -- the day that the event OF filed was taken back
    'released',  -- others know of the day that the event OF filed
    'labelled',  -- users, holders and accounts got other names: TEXT
    'upgraded'   -- the file was made of a folder of an older version, whose journal is TEXT
  )),
  -- when, in UTC; by which login; and the name that was given
  at TEXT NOT NULL,
  login TEXT NOT NULL,
  who TEXT NOT NULL,
  why TEXT NOT NULL,
  -- the last event before it that filed or undid a day: what was handed in stands behind it; 0 before the first one
  base INTEGER NOT NULL,
  -- the settlement day; of what is handed in again, the first day into which it comes
  date TEXT,
  -- the event of which it speaks; of what is handed in again, the one that handed it in first
  of INTEGER REFERENCES events,
  kind TEXT NOT NULL,
  name TEXT NOT NULL,
  start INTEGER NOT NULL,
  count INTEGER NOT NULL,
  text TEXT REFERENCES texts,
  report TEXT REFERENCES texts,
  waiting TEXT REFERENCES texts,
  waits TEXT REFERENCES texts,
  -- the first record number of the day, and the one behind its last
  first INTEGER NOT NULL,
  next INTEGER NOT NULL,
  -- what settled the day
  engine TEXT NOT NULL,
  sum TEXT NOT NULL,
  -- the commands whose right it needs beside
  beside TEXT NOT NULL,
  -- the logins that approved it
  approved TEXT NOT NULL,
  -- the sum of the people and of the commands of four eyes that office.ini named
  people TEXT NOT NULL,
  line TEXT NOT NULL UNIQUE
) STRICT;
CREATE INDEX events_of ON events (of) WHERE of IS NOT NULL;
CREATE INDEX events_base ON events (base, what);

CREATE TRIGGER events_stay BEFORE UPDATE ON events BEGIN SELECT raise(ABORT, 'an event stays as it is'); END;
CREATE TRIGGER events_remain BEFORE DELETE ON events BEGIN SELECT raise(ABORT, 'an event stays'); END;
CREATE TRIGGER events_follow BEFORE INSERT ON events
  WHEN new.before IS NOT coalesce((SELECT line FROM events ORDER BY id DESC LIMIT 1), '')
  BEGIN SELECT raise(ABORT, 'somebody was quicker'); END;
CREATE TRIGGER texts_stay BEFORE UPDATE ON texts BEGIN SELECT raise(ABORT, 'a text stays as it is'); END;
CREATE TRIGGER texts_remain BEFORE DELETE ON texts BEGIN SELECT raise(ABORT, 'a text stays'); END;

-- The state is a question to the events. The days that count, by rising date:
CREATE VIEW filed AS
  SELECT * FROM events AS own WHERE what = 'filed'
    AND NOT EXISTS (SELECT 1 FROM events WHERE what = 'undone' AND of = own.id)
  ORDER BY date;
-- What others know of
CREATE VIEW released AS
  SELECT * FROM filed WHERE date <= (SELECT max(date) FROM events WHERE what = 'released');
-- What stands behind each event that filed or undid a day, with who handed it in first and when: of first texts, the
-- last one
CREATE VIEW handed AS
  SELECT own.id, own.base, own.of, own.kind, own.name, own.start, own.count, own.text, own.date, first.at, first.login, first.who
  FROM events AS own JOIN events AS first ON first.id = coalesce(own.of, own.id)
  WHERE own.what = 'handed' AND (own.kind <> 'first' OR NOT EXISTS (SELECT 1 FROM events AS later
    WHERE later.base = own.base AND later.what = 'handed' AND later.kind = 'first' AND later.id > own.id));
-- What is handed in for the next day
CREATE VIEW handed_for_the_next_day AS
  SELECT * FROM handed WHERE base = coalesce((SELECT max(id) FROM events WHERE what IN ('filed', 'undone')), 0);
-- What came into each day: all that stood before it but what was handed in again behind it
CREATE VIEW handed_for_days AS
  SELECT filed.id AS day, filed.date AS of_date, handed.* FROM filed JOIN handed ON handed.base = filed.base
    AND handed.id < filed.id AND NOT EXISTS (SELECT 1 FROM events AS again WHERE again.what = 'handed'
      AND again.base = filed.id AND again.of = coalesce(handed.of, handed.id));
-- Who approved something that counts, whatever it is
CREATE VIEW approvals AS
  SELECT sum, login, who, at, name FROM events AS own WHERE what = 'approved'
    AND base = coalesce((SELECT max(id) FROM events WHERE what IN ('filed', 'undone')), 0);

-- What came of each instruction of the next day at the last look: so the next look says what is new. No answer rests on
-- it.
CREATE TABLE looked (line TEXT NOT NULL) STRICT;
