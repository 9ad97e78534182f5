-- The functions in a schema that is not trusted, and whose texts are UTF-16: in generated columns, checks, indexes on
-- expressions, triggers and views. tests/sqlite compares what is printed with untrusted.expected.

PRAGMA trusted_schema = OFF;
PRAGMA encoding = 'UTF-16';

CREATE TABLE shape (
    id      INTEGER PRIMARY KEY,
    summary BLOB GENERATED ALWAYS AS (karvoiss_summary(outline)) STORED,
    x_min   INTEGER GENERATED ALWAYS AS (karvoiss_x_min(summary)) VIRTUAL,
    outline BLOB CHECK (karvoiss_summary_number(outline) = 0)
);
CREATE INDEX shape_y_min ON shape (karvoiss_y_min(summary));
CREATE TABLE log (text TEXT);
CREATE TRIGGER added AFTER INSERT ON shape BEGIN
    INSERT INTO log SELECT id || ' ' || karvoiss_cells(karvoiss_split(karvoiss_scene(new.outline, outline))) FROM shape WHERE id < new.id;
END;
CREATE TABLE pattern (text TEXT);
INSERT INTO pattern VALUES ('F***T****'), ('FF*FF****'), ('T********');
CREATE VIEW related AS
SELECT f.id AS f, g.id AS g, text FROM shape AS f JOIN shape AS g ON f.id < g.id JOIN pattern ON karvoiss_try_relate(karvoiss_scene(f.outline, g.outline), text);
CREATE VIEW touching AS
SELECT f.id AS f, g.id AS g FROM shape AS f JOIN shape AS g ON f.id < g.id WHERE karvoiss_touches(karvoiss_split(karvoiss_scene(f.outline, g.outline)));

-- the lines (0,0)-(4,0) and (2,-2)-(2,0), and the point (4,0)
INSERT INTO shape VALUES (1, x'54024c00000000000000000400000000000000014c000000000000000004000000000000000045');
INSERT INTO shape VALUES (2, x'54024c02000000feffffff0200000000000000014c02000000feffffff02000000000000000045');
INSERT INTO shape VALUES (3, x'540150040000000000000045');
INSERT INTO shape VALUES (4, x'5401500400000000000000');
INSERT INTO shape VALUES (5, 'text');

SELECT id, x_min, hex(summary) FROM shape;
SELECT * FROM log;
SELECT * FROM touching;
SELECT * FROM related;
SELECT id FROM shape WHERE karvoiss_y_min(summary) = -2;
EXPLAIN QUERY PLAN SELECT id FROM shape WHERE karvoiss_y_min(summary) = -2;
PRAGMA integrity_check;
