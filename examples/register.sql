-- A register of shapes in SQLite: shapes with their summaries, an index over their boxes, and how every two of
-- them lie to each other, as one query. docs/SQL.md says what each function gives.
--
--     make sqlite
--     sqlite3 register.db < examples/register.sql

.load target/sqlite/karvoiss
.mode column

-- ---- The schema ---------------------------------------------------------------

-- An outline that is no object is not stored: its summary is refused. The summary stands before the outline, so
-- that it is read without it.
CREATE TABLE shape (
    id      INTEGER PRIMARY KEY,
    name    TEXT NOT NULL UNIQUE,
    summary BLOB NOT NULL GENERATED ALWAYS AS (karvoiss_summary(outline)) STORED,
    outline BLOB NOT NULL
);

-- An index over the boxes, in whole numbers. An empty shape has no box and meets nothing.
CREATE VIRTUAL TABLE box USING rtree_i32 (id, x_min, x_max, y_min, y_max);

CREATE TRIGGER shape_added AFTER INSERT ON shape WHEN karvoiss_x_min(new.summary) IS NOT NULL BEGIN
    INSERT INTO box VALUES (new.id, karvoiss_x_min(new.summary), karvoiss_x_max(new.summary),
                            karvoiss_y_min(new.summary), karvoiss_y_max(new.summary));
END;

CREATE TRIGGER shape_gone AFTER DELETE ON shape BEGIN
    DELETE FROM box WHERE id = old.id;
END;

CREATE TRIGGER shape_changed AFTER UPDATE OF id, outline ON shape BEGIN
    DELETE FROM box WHERE id = old.id;
    INSERT INTO box SELECT new.id, karvoiss_x_min(new.summary), karvoiss_x_max(new.summary),
                           karvoiss_y_min(new.summary), karvoiss_y_max(new.summary)
                     WHERE karvoiss_x_min(new.summary) IS NOT NULL;
END;

-- The pairs whose boxes share a point, each once.
CREATE VIEW near AS
SELECT f.id AS f, g.id AS g
  FROM box AS f
  JOIN box AS g ON g.x_min <= f.x_max AND g.x_max >= f.x_min AND g.y_min <= f.y_max AND g.y_max >= f.y_min AND g.id > f.id;

-- ---- Shapes, as well-known binary ------------------------------------------------

-- MULTIPOLYGON (((0 0, 4 0, 4 4, 0 4, 0 0)))
INSERT INTO shape (name, outline) VALUES ('meadow', karvoiss_object(x'010600000001000000010300000001000000050000000000000000000000000000000000000000000000000010400000000000000000000000000000104000000000000010400000000000000000000000000000104000000000000000000000000000000000'));
-- MULTIPOLYGON (((2 2, 6 2, 6 6, 2 6, 2 2)))
INSERT INTO shape (name, outline) VALUES ('orchard', karvoiss_object(x'010600000001000000010300000001000000050000000000000000000040000000000000004000000000000018400000000000000040000000000000184000000000000018400000000000000040000000000000184000000000000000400000000000000040'));
-- MULTIPOLYGON (((1 1, 2 1, 1 2, 1 1)))
INSERT INTO shape (name, outline) VALUES ('pond', karvoiss_object(x'01060000000100000001030000000100000004000000000000000000f03f000000000000f03f0000000000000040000000000000f03f000000000000f03f0000000000000040000000000000f03f000000000000f03f'));
-- MULTIPOLYGON (((1 -1, 3 -1, 2 2, 1 -1)))
INSERT INTO shape (name, outline) VALUES ('spinney', karvoiss_object(x'01060000000100000001030000000100000004000000000000000000f03f000000000000f0bf0000000000000840000000000000f0bf00000000000000400000000000000040000000000000f03f000000000000f0bf'));
-- MULTILINESTRING ((-2 4, 6 4))
INSERT INTO shape (name, outline) VALUES ('road', karvoiss_object(x'01050000000100000001020000000200000000000000000000c0000000000000104000000000000018400000000000001040'));
-- MULTIPOINT ((1 1), (3 4))
INSERT INTO shape (name, outline) VALUES ('wells', karvoiss_object(x'0104000000020000000101000000000000000000f03f000000000000f03f010100000000000000000008400000000000001040'));
-- MULTIPOLYGON (((70 70, 90 70, 80 95, 70 70)))
INSERT INTO shape (name, outline) VALUES ('isle', karvoiss_object(x'01060000000100000001030000000100000004000000000000000080514000000000008051400000000000805640000000000080514000000000000054400000000000c0574000000000008051400000000000805140'));
-- MULTIPOINT EMPTY
INSERT INTO shape (name, outline) VALUES ('none', karvoiss_object(x'010400000000000000'));

-- ---- The register -----------------------------------------------------------------

-- Near pairs, split where they meet. A pair that crosses off the grid has no scene, and says why. Each of the two
-- first parts is MATERIALIZED, since SQLite would ask once more for each place where an answer is used.
WITH pair AS MATERIALIZED (
    SELECT f.name AS f, g.name AS g, karvoiss_scene(f.outline, g.outline) AS raw
      FROM near JOIN shape AS f ON f.id = near.f JOIN shape AS g ON g.id = near.g
), looked AS MATERIALIZED (
    SELECT f, g, raw, karvoiss_try_split(raw) AS scene FROM pair
)
SELECT f, g, karvoiss_cells(scene) AS cells,
       CASE WHEN scene IS NULL THEN 'refused with ' || karvoiss_split_number(raw) || ' at byte ' || karvoiss_split_place(raw)
            WHEN karvoiss_disjoint(scene) THEN 'apart'
            WHEN karvoiss_touches(scene) THEN 'they touch'
            WHEN karvoiss_within(scene) THEN 'within'
            WHEN karvoiss_contains(scene) THEN 'contains'
            WHEN karvoiss_crosses(scene) THEN 'they cross'
            WHEN karvoiss_overlaps(scene) THEN 'they overlap'
       END AS so,
       karvoiss_try_area_both(scene) / 2.0 AS ground
  FROM looked
 ORDER BY f, g;

-- Every pair, and the far ones by their summaries alone: the outlines are read only where these do not tell.
SELECT f.name AS f, g.name AS g, karvoiss_far(f.summary, g.summary) AS told,
       coalesce(karvoiss_far_cells(f.summary, g.summary),
                karvoiss_try_cells(karvoiss_try_split(karvoiss_scene(f.outline, g.outline)))) AS cells
  FROM shape AS f JOIN shape AS g ON g.id > f.id
 ORDER BY f.id, g.id;

-- What cannot be stored: a ring that is open, in words.
INSERT INTO shape (name, outline)
VALUES ('open', karvoiss_object(x'01060000000100000001030000000100000004000000000000000000000000000000000000000000000000001040000000000000000000000000000010400000000000001040000000000000000000000000000010c0'));

-- How the near pairs are found: for each box those that meet it, by the index.
EXPLAIN QUERY PLAN SELECT f, g FROM near;
