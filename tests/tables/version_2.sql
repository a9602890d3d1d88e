-- What a book of version 2 has that one of version 1 has not: four tables more, the base HOME with the zone of the book, and each member
-- at that base.
CREATE TABLE base (id TEXT NOT NULL, zone TEXT NOT NULL, PRIMARY KEY (id)) STRICT;
CREATE TABLE crew_base (crew TEXT NOT NULL, base TEXT NOT NULL, PRIMARY KEY (crew)) STRICT;
CREATE TABLE outside (id TEXT NOT NULL, crew TEXT NOT NULL, report_at INTEGER NOT NULL, release_at INTEGER NOT NULL, PRIMARY KEY (id),
    UNIQUE (crew, id)) STRICT;
CREATE TABLE outside_segment (outside TEXT NOT NULL, number INTEGER NOT NULL, out_at INTEGER NOT NULL, in_at INTEGER NOT NULL,
    PRIMARY KEY (outside, number)) STRICT;

INSERT INTO base SELECT 'HOME', zone FROM book;
INSERT INTO crew_base SELECT id, 'HOME' FROM crew;
UPDATE book SET version = 2;
