-- Fills an empty book with 10,000 pairings of one period of two segments each, on a day of their own, with both seats held, and
-- with the five requests of each: it is added, its seats are assigned, the captain is released and takes it again. A member
-- holds a hundred of them.
BEGIN;
CREATE TABLE number (n INTEGER NOT NULL UNIQUE) STRICT;
INSERT INTO number (n) WITH RECURSIVE count (n) AS (SELECT 0 UNION ALL SELECT n + 1 FROM count WHERE n < 49999) SELECT n FROM count;
INSERT INTO crew (id, seat, name) SELECT 'M' || (1000000 + n), n % 2, 'Ada Ray' FROM number WHERE n < 200;
INSERT INTO crew_base (crew, base) SELECT id, 'HOME' FROM crew;
INSERT INTO pairing (id) SELECT 'P' || (1000000 + n) FROM number WHERE n < 10000;
INSERT INTO period (pairing, number, report_at, release_at)
    SELECT 'P' || (1000000 + n), 1, n * 1440 + 720, n * 1440 + 1070 FROM number WHERE n < 10000;
INSERT INTO segment (pairing, period, number, flight, origin, destination, out_at, in_at)
    SELECT 'P' || (1000000 + n), 1, 1, 'RB1', 'BOS', 'IAD', n * 1440 + 740, n * 1440 + 870 FROM number WHERE n < 10000;
INSERT INTO segment (pairing, period, number, flight, origin, destination, out_at, in_at)
    SELECT 'P' || (1000000 + n), 1, 2, 'RB2', 'IAD', 'BOS', n * 1440 + 920, n * 1440 + 1050 FROM number WHERE n < 10000;
INSERT INTO seat (pairing, seat, crew) SELECT 'P' || (1000000 + n), 0, 'M' || (1000000 + n / 100 * 2) FROM number WHERE n < 10000;
INSERT INTO seat (pairing, seat, crew) SELECT 'P' || (1000000 + n), 1, 'M' || (1000001 + n / 100 * 2) FROM number WHERE n < 10000;
INSERT INTO request (number, part, command, reply) SELECT n + 1, 0,
    '{"do":"add-pairing","pairing":"P' || (1000000 + n / 5) || '","periods":[{"release":"2025-06-10T17:50Z","report":"2025-06-10T12:00Z","segments":['
    || '{"flight":"RB1","from":"BOS","in":"2025-06-10T14:30Z","out":"2025-06-10T12:20Z","to":"IAD"},'
    || '{"flight":"RB2","from":"IAD","in":"2025-06-10T17:30Z","out":"2025-06-10T15:20Z","to":"BOS"}]}]}',
    '{"exceedances":[],"result":"accepted"}' FROM number WHERE n % 5 = 0;
INSERT INTO request (number, part, command, reply) SELECT n + 1, 0,
    '{"crew":"M' || (1000000 + n / 500 * 2 + (n % 5 = 1)) || '","do":"assign","pairing":"P' || (1000000 + n / 5) || '"}',
    '{"exceedances":[],"result":"accepted"}' FROM number WHERE n % 5 IN (1, 2, 4);
INSERT INTO request (number, part, command, reply) SELECT n + 1, 0,
    '{"crew":"M' || (1000000 + n / 500 * 2) || '","do":"release","pairing":"P' || (1000000 + n / 5) || '"}',
    '{"exceedances":[],"result":"accepted"}' FROM number WHERE n % 5 = 3;
DROP TABLE number;
COMMIT;
