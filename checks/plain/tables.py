"""The eleven tables, as docs/FORMATS.md says them: those of the first round, and those of a second one, with the row that says that none is
opened."""
FIRST = """
CREATE TABLE portal (id INTEGER NOT NULL PRIMARY KEY CHECK (id = 1), version INTEGER NOT NULL, phase INTEGER NOT NULL, office TEXT NOT NULL) STRICT;
CREATE TABLE lecturer (key TEXT NOT NULL PRIMARY KEY, name TEXT NOT NULL, code TEXT NOT NULL UNIQUE,
  capacity INTEGER NOT NULL CHECK (capacity >= 1 AND capacity <= 200), ranked INTEGER NOT NULL CHECK (ranked = 0 OR ranked = 1)) STRICT;
CREATE TABLE project (key TEXT NOT NULL PRIMARY KEY, lecturer TEXT NOT NULL REFERENCES lecturer (key), title TEXT NOT NULL,
  capacity INTEGER NOT NULL CHECK (capacity >= 1 AND capacity <= 200)) STRICT;
CREATE TABLE student (key TEXT NOT NULL PRIMARY KEY, name TEXT NOT NULL, code TEXT NOT NULL UNIQUE, assigned TEXT REFERENCES project (key)) STRICT;
CREATE TABLE choice (student TEXT NOT NULL REFERENCES student (key), place INTEGER NOT NULL, project TEXT NOT NULL REFERENCES project (key),
  PRIMARY KEY (student, place), UNIQUE (project, student)) STRICT;
CREATE TABLE ranking (lecturer TEXT NOT NULL REFERENCES lecturer (key), place INTEGER NOT NULL, student TEXT NOT NULL REFERENCES student (key),
  PRIMARY KEY (lecturer, place), UNIQUE (student, lecturer)) STRICT;
"""
SECOND = """
CREATE TABLE second (id INTEGER NOT NULL PRIMARY KEY CHECK (id = 1), phase INTEGER NOT NULL CHECK (phase >= 0 AND phase <= 3)) STRICT;
CREATE TABLE choice2 (student TEXT NOT NULL REFERENCES student (key), place INTEGER NOT NULL, project TEXT NOT NULL REFERENCES project (key),
  PRIMARY KEY (student, place), UNIQUE (project, student)) STRICT;
CREATE TABLE ranked2 (lecturer TEXT NOT NULL PRIMARY KEY REFERENCES lecturer (key)) STRICT;
CREATE TABLE ranking2 (lecturer TEXT NOT NULL REFERENCES lecturer (key), place INTEGER NOT NULL, student TEXT NOT NULL REFERENCES student (key),
  PRIMARY KEY (lecturer, place), UNIQUE (student, lecturer)) STRICT;
CREATE TABLE assigned2 (student TEXT NOT NULL PRIMARY KEY REFERENCES student (key), project TEXT NOT NULL REFERENCES project (key)) STRICT;
INSERT INTO second VALUES (1, 0);
"""
TABLES = FIRST + SECOND
