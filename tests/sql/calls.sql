-- Calls of every function that the extension has, as statements in the table `call`, for tests/sqlite: with good
-- arguments, with NULL, with a value of each wrong type and with bytes of many kinds in each place. The files
-- *.million of the working folder have a million bytes each.

-- ---- Good arguments ----------------------------------------------------------------

-- Of each kind two, as expressions: of two squares that share a corner, or lie apart.
CREATE TABLE good (kind TEXT PRIMARY KEY, is_blob INTEGER, value TEXT, other TEXT);

INSERT INTO good VALUES
    ('wkb', 1, 'x''010600000001000000010300000001000000050000000000000000000000000000000000000000000000000008400000000000000000000000000000084000000000000008400000000000000000000000000000084000000000000000000000000000000000''', NULL),
    ('object', 1, 'karvoiss_object(x''010600000001000000010300000001000000050000000000000000000000000000000000000000000000000008400000000000000000000000000000084000000000000008400000000000000000000000000000084000000000000000000000000000000000'')',
                  'karvoiss_object(x''010600000001000000010300000001000000050000000000000000000840000000000000084000000000000010400000000000000840000000000000104000000000000010400000000000000840000000000000104000000000000008400000000000000840'')'),
    ('summary', 1, 'karvoiss_summary(karvoiss_object(x''010600000001000000010300000001000000050000000000000000000000000000000000000000000000000008400000000000000000000000000000084000000000000008400000000000000000000000000000084000000000000000000000000000000000''))',
                   'karvoiss_summary(karvoiss_object(x''010600000001000000010300000001000000050000000000000000002240000000000000224000000000000024400000000000002240000000000000244000000000000024400000000000002240000000000000244000000000000022400000000000002240''))'),
    ('pattern', 0, '''FF*FT****''', '''FF*FT****'''),
    ('mask', 0, '3', '3'),
    ('number', 0, '13', NULL);

INSERT INTO good SELECT 'scene', 1, 'karvoiss_scene(' || value || ', ' || other || ')', NULL FROM good WHERE kind = 'object';

-- ---- Functions, and the kinds of their arguments ---------------------------------------

CREATE TABLE function AS
SELECT name, narg AS count,
       CASE WHEN name GLOB '*_words' THEN 'number'
            WHEN name GLOB '*_object*' THEN 'wkb'
            WHEN name GLOB '*_summary*' OR name GLOB '*_scene' THEN 'object'
            WHEN name GLOB '*_far*' OR name GLOB '*_[xy]_m*' THEN 'summary'
            ELSE 'scene'
       END AS first,
       CASE WHEN narg > 1 THEN
           CASE WHEN name GLOB '*_scene' THEN 'object' WHEN name GLOB '*_far*' THEN 'summary' WHEN name GLOB '*_relate' THEN 'pattern' ELSE 'mask' END
       END AS second,
       CASE WHEN narg > 2 THEN 'mask' END AS third
  FROM pragma_function_list
 WHERE name GLOB 'karvoiss_*';

-- Each place of an argument: what stands before it and after it in a call whose other arguments are good.
CREATE TABLE place AS
SELECT f.name, 1 AS at, f.first AS kind, f.name || '(' AS before, coalesce(', ' || b.other, '') || coalesce(', ' || c.other, '') || ')' AS after
  FROM function AS f LEFT JOIN good AS b ON b.kind = f.second LEFT JOIN good AS c ON c.kind = f.third
 UNION ALL
SELECT f.name, 2, f.second, f.name || '(' || a.value || ', ', coalesce(', ' || c.other, '') || ')'
  FROM function AS f JOIN good AS a ON a.kind = f.first LEFT JOIN good AS c ON c.kind = f.third
 WHERE f.count > 1
 UNION ALL
SELECT f.name, 3, f.third, f.name || '(' || a.value || ', ' || b.other || ', ', ')'
  FROM function AS f JOIN good AS a ON a.kind = f.first JOIN good AS b ON b.kind = f.second
 WHERE f.count > 2;

-- ---- Bytes ---------------------------------------------------------------------------

CREATE TABLE bytes (value TEXT);

INSERT INTO bytes VALUES ('x'''''), ('x''54'''), ('x''45'''), ('x''00'''), ('zeroblob(1000000)'), ('randomblob(1000000)'),
    ('readfile(''points.million'')'), ('readfile(''after.million'')'), ('readfile(''parts.million'')');

INSERT INTO bytes SELECT 'randomblob(' || value || ')' FROM json_each('[1, 2, 3, 19, 20, 21, 100, 1000, 19459, 38918, 100000]');

INSERT INTO bytes SELECT 'substr(' || good.value || ', 1, ' || cut.value || ')'
  FROM good, json_each('[1, 2, 3, 5, 9, 18, 19, 20, 21, 50, 92, 157, 159]') AS cut WHERE is_blob;

INSERT INTO bytes SELECT value FROM good WHERE is_blob;

-- ---- The statements --------------------------------------------------------------------

-- Values that have another type than the argument must have.
CREATE TABLE wrong (value TEXT, type TEXT);

INSERT INTO wrong VALUES ('''''', 'text'), ('''text''', 'text'), ('cast(x''540145'' AS TEXT)', 'text'), ('1', 'integer'), ('-1', 'integer'), ('1.0', 'real'),
    ('x''''', 'blob'), ('x''2A2A2A2A2A2A2A2A2A''', 'blob');

CREATE TABLE call AS
SELECT 'good' AS sort, 'SELECT typeof(' || before || value || after || ');' AS text FROM place JOIN good USING (kind) WHERE at = 1
 UNION ALL
SELECT 'null', 'SELECT typeof(' || before || 'NULL' || after || ');' FROM place
 UNION ALL
SELECT 'wrong', 'SELECT typeof(' || before || wrong.value || after || ');'
  FROM place JOIN good USING (kind) JOIN wrong ON type <> CASE WHEN is_blob THEN 'blob' WHEN kind = 'pattern' THEN 'text' ELSE 'integer' END
 UNION ALL
SELECT CASE WHEN name GLOB '*_try_*' OR name GLOB '*_number' OR name GLOB '*_place' THEN 'tries' ELSE 'bytes' END,
       'SELECT typeof(' || before || bytes.value || after || ');'
  FROM place JOIN good USING (kind), bytes
 WHERE is_blob;
