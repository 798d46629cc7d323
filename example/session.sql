LOGIN ann secret
CREATE TABLE account (id INTEGER PRIMARY KEY, owner TEXT, cents INTEGER)
INSERT INTO account VALUES (2, 'Bob', 4200), (1, 'Ann O''Neil', -350)
INSERT INTO account (owner, id, cents) VALUES ('Cid', 3, 0)
INSERT INTO account VALUES (4, 'Dan', 10), (1, 'Eve', 0)
CREATE TABLE payment (no INTEGER PRIMARY KEY, account INTEGER, cents INTEGER, at INTEGER)
INSERT INTO payment VALUES (1, 2, -1200, 0), (2, 1, 500, 0), (3, 2, 80, 0), (4, 9, 5, 0)
DELETE FROM payment WHERE account = 9
SELECT owner, payment.cents FROM account, payment WHERE account = id
SELECT account, COUNT(*), SUM(cents) FROM payment GROUP BY account
BEGIN
UPDATE account SET cents = cents - 100 WHERE owner = 'Bob'
INSERT INTO payment VALUES (5, 2, -100, NOW())
SELECT owner, cents FROM account ORDER BY cents DESC LIMIT 1
DROP TABLE account
ROLLBACK
SELECT owner, cents FROM account ORDER BY cents DESC LIMIT 1
BEGIN
UPDATE account SET cents = cents + 500 WHERE id = 1
INSERT INTO payment VALUES (5, 1, 500, NOW())
COMMIT
SELECT owner, account.cents, at FROM account, payment WHERE account = id AND at > 0
COMMIT
UPDATE account SET cents = cents + 9223372036854775807
SELECT cents FROM account, payment
SELECT * FROM invoice
SELECT FROM account
INSERT INTO payment VALUES (6, 3, RAND(1000), NOW())
SELECT * FROM payment WHERE no = 6
STATS
QUIT
