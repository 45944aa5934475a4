-- Questions to the database that ./day db FILE makes: sqlite3 FILE < examples/questions.sql asks all of them. The file
-- of a folder answers them, too: sqlite3 -readonly FOLDER/registry.sqlite < examples/questions.sql. They are about the
-- week of examples/week: put your own dates and numbers in the place of its own.
--
-- A table has each thing once; accounts_by_day and its lists have a row only for days on which something of an account
-- changed:
--
--   days: a settled day
--   instructions (of days): an instruction, by its record number
--   shares (of instructions): an account that receives, and how much
--   log (of instructions): done, or refused by which check
--   held (of instructions): what each account of one that was done held after it
--   totals (of days): what all accounts together held, had surrendered and had deleted after the day
--   accounts_by_day (of days): what an account was after a day
--   corrections, users, trusted, surrenders, emissions, figures (of accounts_by_day): an entry of a list of the account
--   hand_changes (of days): a row that people changed before the day, of an account or, without one, of the rules
--   holdings_on: a view: what each account held on each settled day

-- What did all accounts hold on a day?
SELECT account, holder, general_held, aviation_held FROM holdings_on WHERE date = '2025-09-24' ORDER BY account;

-- How did the balance of an account go?
SELECT date, general FROM accounts_by_day WHERE account = 100377 ORDER BY date;

-- Which check refused how often?
SELECT name, count(*) FROM log WHERE NOT is_done GROUP BY name ORDER BY count(*) DESC;

-- Who proposed what was refused?
SELECT proposer, count(*) FROM instructions JOIN log USING (record) WHERE NOT is_done GROUP BY proposer;

-- What did an account get, and from whom?
SELECT date, account AS giver, shares.amount FROM shares JOIN instructions USING (record) JOIN log USING (record)
WHERE receiver = 100377 AND is_done;

-- What was surrendered in a month?
SELECT kind, sum(amount) FROM instructions JOIN log USING (record)
WHERE act = 'surrender' AND is_done AND date BETWEEN '2025-09-01' AND '2025-09-30' GROUP BY kind;

-- Whose figure of a year is below 0?
SELECT account, figure FROM figures WHERE year = 2024 AND figure < 0
AND date = (SELECT max(date) FROM accounts_by_day WHERE account = figures.account AND date <= '2025-09-24');

-- Which users represented an account on a day?
SELECT user, right FROM users WHERE account = 100377
AND date = (SELECT max(date) FROM accounts_by_day WHERE account = 100377 AND date <= '2025-09-23');

-- What was changed by hand, and when?
SELECT date, account, sign, text FROM hand_changes ORDER BY date, account, place;

-- How many days after its proposal was each transfer done?
SELECT record, julianday(date) - julianday(proposed) AS days FROM instructions JOIN log USING (record)
WHERE act = 'transfer' AND is_done;
