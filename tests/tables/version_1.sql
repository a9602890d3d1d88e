-- A sound book of version 1, with times in minutes since 2000-01-01T00:00Z: three members; P1 of one period, flown, with both seats and
-- an exceedance; P2 of two periods, planned, with a captain; a ground duty; and two requests.
CREATE TABLE book (one INTEGER NOT NULL UNIQUE, version INTEGER NOT NULL, zone TEXT NOT NULL) STRICT;
CREATE TABLE crew (id TEXT NOT NULL, seat INTEGER NOT NULL, name TEXT NOT NULL, PRIMARY KEY (id)) STRICT;
CREATE TABLE pairing (id TEXT NOT NULL, PRIMARY KEY (id)) STRICT;
CREATE TABLE period (pairing TEXT NOT NULL, number INTEGER NOT NULL, report_at INTEGER NOT NULL, release_at INTEGER NOT NULL,
    act_report INTEGER, act_release INTEGER, PRIMARY KEY (pairing, number)) STRICT;
CREATE TABLE segment (pairing TEXT NOT NULL, period INTEGER NOT NULL, number INTEGER NOT NULL, flight TEXT NOT NULL,
    origin TEXT NOT NULL, destination TEXT NOT NULL, out_at INTEGER NOT NULL, in_at INTEGER NOT NULL, act_out INTEGER,
    act_in INTEGER, PRIMARY KEY (pairing, period, number)) STRICT;
CREATE TABLE seat (pairing TEXT NOT NULL, seat INTEGER NOT NULL, crew TEXT NOT NULL, PRIMARY KEY (pairing, seat),
    UNIQUE (crew, pairing)) STRICT;
CREATE TABLE ground (id TEXT NOT NULL, crew TEXT NOT NULL, task TEXT NOT NULL, begin_at INTEGER NOT NULL,
    end_at INTEGER NOT NULL, PRIMARY KEY (id), UNIQUE (crew, id)) STRICT;
CREATE TABLE exceedance (number INTEGER NOT NULL, part INTEGER NOT NULL, crew TEXT NOT NULL, section INTEGER NOT NULL,
    pairing TEXT NOT NULL, period INTEGER NOT NULL, PRIMARY KEY (number, part, crew, section)) STRICT;
CREATE TABLE request (number INTEGER NOT NULL, part INTEGER NOT NULL, command TEXT NOT NULL, reply TEXT NOT NULL,
    PRIMARY KEY (number, part)) STRICT;

INSERT INTO book VALUES (1, 1, 'EST5EDT,M3.2.0,M11.1.0');
INSERT INTO crew VALUES ('C1', 0, 'Ada Ray'), ('C2', 0, 'Bo Lind'), ('F1', 1, 'Zoë Roy');
INSERT INTO pairing VALUES ('P1'), ('P2');
INSERT INTO period VALUES
    ('P1', 1, 13381140, 13381680, 13381140, 13382370),
    ('P2', 1, 13386900, 13387440, NULL, NULL),
    ('P2', 2, 13388340, 13388880, NULL, NULL);
INSERT INTO segment VALUES
    ('P1', 1, 1, 'RB1', 'BOS', 'IAD', 13381200, 13381320, 13381200, 13381320),
    ('P1', 1, 2, 'RB2', 'IAD', 'BOS', 13381380, 13381650, 13381860, 13382340),
    ('P2', 1, 1, 'RB3', 'BOS', 'IAD', 13386960, 13387080, NULL, NULL),
    ('P2', 2, 1, 'RB4', 'IAD', 'KBOS', 13388400, 13388520, NULL, NULL);
INSERT INTO seat VALUES ('P1', 0, 'C1'), ('P1', 1, 'F1'), ('P2', 0, 'C2');
INSERT INTO ground VALUES ('G1', 'C1', 'Simulator', 13383840, 13384080);
INSERT INTO exceedance VALUES (13, 2, 'C1', 2, 'P1', 1);
INSERT INTO request VALUES
    (6, 0, '{"crew":"C1","do":"assign","pairing":"P1"}', '{"exceedances":[],"result":"accepted"}'),
    (13, 2, '{"do":"actual","pairing":"P1","period":1,"release":"2025-06-11T07:30Z","report":"2025-06-10T11:00Z","segments":[' ||
        '{"in":"2025-06-10T14:00Z","out":"2025-06-10T12:00Z"},{"in":"2025-06-11T07:00Z","out":"2025-06-10T23:00Z"}]}',
        '{"exceedances":[{"crew":"C1","section":"117.13(a)"}],"result":"accepted"}');
