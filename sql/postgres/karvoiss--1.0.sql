-- karvoiss--1.0.sql: the functions that CREATE EXTENSION karvoiss declares. What each does, and what its names mean, is in docs/SQL.md.
-- All give the same for the same bytes, keep no state and write nothing: IMMUTABLE, PARALLEL SAFE; null gives null: STRICT.
-- COST is what a call takes, in calls of a plain operator: measured by bench/postgres on shapes of some 30 segments, and docs/SQL.md has the figures.
\echo Use "CREATE EXTENSION karvoiss" to load this file. \quit

-- Objects, of well-known binary; their summaries
CREATE FUNCTION karvoiss_object(wkb bytea) RETURNS bytea
    AS 'MODULE_PATHNAME', 'karvoiss_sql_object' LANGUAGE C IMMUTABLE STRICT PARALLEL SAFE COST 1300;
CREATE FUNCTION karvoiss_try_object(wkb bytea) RETURNS bytea
    AS 'MODULE_PATHNAME', 'karvoiss_sql_try_object' LANGUAGE C IMMUTABLE STRICT PARALLEL SAFE COST 1300;
CREATE FUNCTION karvoiss_summary(object bytea) RETURNS bytea
    AS 'MODULE_PATHNAME', 'karvoiss_sql_summary' LANGUAGE C IMMUTABLE STRICT PARALLEL SAFE COST 400;
CREATE FUNCTION karvoiss_try_summary(object bytea) RETURNS bytea
    AS 'MODULE_PATHNAME', 'karvoiss_sql_try_summary' LANGUAGE C IMMUTABLE STRICT PARALLEL SAFE COST 400;

-- Of summaries: boxes, for an index, and what two of them tell
CREATE FUNCTION karvoiss_x_min(summary bytea) RETURNS integer
    AS 'MODULE_PATHNAME', 'karvoiss_sql_x_min' LANGUAGE C IMMUTABLE STRICT PARALLEL SAFE COST 10;
CREATE FUNCTION karvoiss_try_x_min(summary bytea) RETURNS integer
    AS 'MODULE_PATHNAME', 'karvoiss_sql_try_x_min' LANGUAGE C IMMUTABLE STRICT PARALLEL SAFE COST 10;
CREATE FUNCTION karvoiss_y_min(summary bytea) RETURNS integer
    AS 'MODULE_PATHNAME', 'karvoiss_sql_y_min' LANGUAGE C IMMUTABLE STRICT PARALLEL SAFE COST 10;
CREATE FUNCTION karvoiss_try_y_min(summary bytea) RETURNS integer
    AS 'MODULE_PATHNAME', 'karvoiss_sql_try_y_min' LANGUAGE C IMMUTABLE STRICT PARALLEL SAFE COST 10;
CREATE FUNCTION karvoiss_x_max(summary bytea) RETURNS integer
    AS 'MODULE_PATHNAME', 'karvoiss_sql_x_max' LANGUAGE C IMMUTABLE STRICT PARALLEL SAFE COST 10;
CREATE FUNCTION karvoiss_try_x_max(summary bytea) RETURNS integer
    AS 'MODULE_PATHNAME', 'karvoiss_sql_try_x_max' LANGUAGE C IMMUTABLE STRICT PARALLEL SAFE COST 10;
CREATE FUNCTION karvoiss_y_max(summary bytea) RETURNS integer
    AS 'MODULE_PATHNAME', 'karvoiss_sql_y_max' LANGUAGE C IMMUTABLE STRICT PARALLEL SAFE COST 10;
CREATE FUNCTION karvoiss_try_y_max(summary bytea) RETURNS integer
    AS 'MODULE_PATHNAME', 'karvoiss_sql_try_y_max' LANGUAGE C IMMUTABLE STRICT PARALLEL SAFE COST 10;
CREATE FUNCTION karvoiss_box(summary bytea) RETURNS box
    AS 'MODULE_PATHNAME', 'karvoiss_sql_box' LANGUAGE C IMMUTABLE STRICT PARALLEL SAFE COST 10;
CREATE FUNCTION karvoiss_try_box(summary bytea) RETURNS box
    AS 'MODULE_PATHNAME', 'karvoiss_sql_try_box' LANGUAGE C IMMUTABLE STRICT PARALLEL SAFE COST 10;
CREATE FUNCTION karvoiss_far(summary bytea, other_summary bytea) RETURNS boolean
    AS 'MODULE_PATHNAME', 'karvoiss_sql_far' LANGUAGE C IMMUTABLE STRICT PARALLEL SAFE COST 10;
CREATE FUNCTION karvoiss_try_far(summary bytea, other_summary bytea) RETURNS boolean
    AS 'MODULE_PATHNAME', 'karvoiss_sql_try_far' LANGUAGE C IMMUTABLE STRICT PARALLEL SAFE COST 10;
CREATE FUNCTION karvoiss_far_cells(summary bytea, other_summary bytea) RETURNS text
    AS 'MODULE_PATHNAME', 'karvoiss_sql_far_cells' LANGUAGE C IMMUTABLE STRICT PARALLEL SAFE COST 10;
CREATE FUNCTION karvoiss_try_far_cells(summary bytea, other_summary bytea) RETURNS text
    AS 'MODULE_PATHNAME', 'karvoiss_sql_try_far_cells' LANGUAGE C IMMUTABLE STRICT PARALLEL SAFE COST 10;
CREATE FUNCTION karvoiss_far_vectors(summary bytea, other_summary bytea) RETURNS bigint
    AS 'MODULE_PATHNAME', 'karvoiss_sql_far_vectors' LANGUAGE C IMMUTABLE STRICT PARALLEL SAFE COST 10;
CREATE FUNCTION karvoiss_try_far_vectors(summary bytea, other_summary bytea) RETURNS bigint
    AS 'MODULE_PATHNAME', 'karvoiss_sql_try_far_vectors' LANGUAGE C IMMUTABLE STRICT PARALLEL SAFE COST 10;

-- Scenes, of two objects, and as they are once split where the two cross
CREATE FUNCTION karvoiss_scene(f bytea, g bytea) RETURNS bytea
    AS 'MODULE_PATHNAME', 'karvoiss_sql_scene' LANGUAGE C IMMUTABLE STRICT PARALLEL SAFE COST 20;
CREATE FUNCTION karvoiss_try_scene(f bytea, g bytea) RETURNS bytea
    AS 'MODULE_PATHNAME', 'karvoiss_sql_try_scene' LANGUAGE C IMMUTABLE STRICT PARALLEL SAFE COST 20;
CREATE FUNCTION karvoiss_split(scene bytea) RETURNS bytea
    AS 'MODULE_PATHNAME', 'karvoiss_sql_split' LANGUAGE C IMMUTABLE STRICT PARALLEL SAFE COST 5700;
CREATE FUNCTION karvoiss_try_split(scene bytea) RETURNS bytea
    AS 'MODULE_PATHNAME', 'karvoiss_sql_try_split' LANGUAGE C IMMUTABLE STRICT PARALLEL SAFE COST 5700;

-- Questions about a scene: the nine cells as text and as bits, patterns, the named predicates, vectors, twice the areas
CREATE FUNCTION karvoiss_cells(scene bytea) RETURNS text
    AS 'MODULE_PATHNAME', 'karvoiss_sql_cells' LANGUAGE C IMMUTABLE STRICT PARALLEL SAFE COST 820;
CREATE FUNCTION karvoiss_try_cells(scene bytea) RETURNS text
    AS 'MODULE_PATHNAME', 'karvoiss_sql_try_cells' LANGUAGE C IMMUTABLE STRICT PARALLEL SAFE COST 820;
CREATE FUNCTION karvoiss_bits(scene bytea) RETURNS integer
    AS 'MODULE_PATHNAME', 'karvoiss_sql_bits' LANGUAGE C IMMUTABLE STRICT PARALLEL SAFE COST 820;
CREATE FUNCTION karvoiss_try_bits(scene bytea) RETURNS integer
    AS 'MODULE_PATHNAME', 'karvoiss_sql_try_bits' LANGUAGE C IMMUTABLE STRICT PARALLEL SAFE COST 820;
CREATE FUNCTION karvoiss_relate(scene bytea, pattern text) RETURNS boolean
    AS 'MODULE_PATHNAME', 'karvoiss_sql_relate' LANGUAGE C IMMUTABLE STRICT PARALLEL SAFE COST 820;
CREATE FUNCTION karvoiss_try_relate(scene bytea, pattern text) RETURNS boolean
    AS 'MODULE_PATHNAME', 'karvoiss_sql_try_relate' LANGUAGE C IMMUTABLE STRICT PARALLEL SAFE COST 820;
CREATE FUNCTION karvoiss_equals(scene bytea) RETURNS boolean
    AS 'MODULE_PATHNAME', 'karvoiss_sql_equals' LANGUAGE C IMMUTABLE STRICT PARALLEL SAFE COST 820;
CREATE FUNCTION karvoiss_try_equals(scene bytea) RETURNS boolean
    AS 'MODULE_PATHNAME', 'karvoiss_sql_try_equals' LANGUAGE C IMMUTABLE STRICT PARALLEL SAFE COST 820;
CREATE FUNCTION karvoiss_disjoint(scene bytea) RETURNS boolean
    AS 'MODULE_PATHNAME', 'karvoiss_sql_disjoint' LANGUAGE C IMMUTABLE STRICT PARALLEL SAFE COST 820;
CREATE FUNCTION karvoiss_try_disjoint(scene bytea) RETURNS boolean
    AS 'MODULE_PATHNAME', 'karvoiss_sql_try_disjoint' LANGUAGE C IMMUTABLE STRICT PARALLEL SAFE COST 820;
CREATE FUNCTION karvoiss_intersects(scene bytea) RETURNS boolean
    AS 'MODULE_PATHNAME', 'karvoiss_sql_intersects' LANGUAGE C IMMUTABLE STRICT PARALLEL SAFE COST 820;
CREATE FUNCTION karvoiss_try_intersects(scene bytea) RETURNS boolean
    AS 'MODULE_PATHNAME', 'karvoiss_sql_try_intersects' LANGUAGE C IMMUTABLE STRICT PARALLEL SAFE COST 820;
CREATE FUNCTION karvoiss_touches(scene bytea) RETURNS boolean
    AS 'MODULE_PATHNAME', 'karvoiss_sql_touches' LANGUAGE C IMMUTABLE STRICT PARALLEL SAFE COST 820;
CREATE FUNCTION karvoiss_try_touches(scene bytea) RETURNS boolean
    AS 'MODULE_PATHNAME', 'karvoiss_sql_try_touches' LANGUAGE C IMMUTABLE STRICT PARALLEL SAFE COST 820;
CREATE FUNCTION karvoiss_within(scene bytea) RETURNS boolean
    AS 'MODULE_PATHNAME', 'karvoiss_sql_within' LANGUAGE C IMMUTABLE STRICT PARALLEL SAFE COST 820;
CREATE FUNCTION karvoiss_try_within(scene bytea) RETURNS boolean
    AS 'MODULE_PATHNAME', 'karvoiss_sql_try_within' LANGUAGE C IMMUTABLE STRICT PARALLEL SAFE COST 820;
CREATE FUNCTION karvoiss_contains(scene bytea) RETURNS boolean
    AS 'MODULE_PATHNAME', 'karvoiss_sql_contains' LANGUAGE C IMMUTABLE STRICT PARALLEL SAFE COST 820;
CREATE FUNCTION karvoiss_try_contains(scene bytea) RETURNS boolean
    AS 'MODULE_PATHNAME', 'karvoiss_sql_try_contains' LANGUAGE C IMMUTABLE STRICT PARALLEL SAFE COST 820;
CREATE FUNCTION karvoiss_coveredby(scene bytea) RETURNS boolean
    AS 'MODULE_PATHNAME', 'karvoiss_sql_coveredby' LANGUAGE C IMMUTABLE STRICT PARALLEL SAFE COST 820;
CREATE FUNCTION karvoiss_try_coveredby(scene bytea) RETURNS boolean
    AS 'MODULE_PATHNAME', 'karvoiss_sql_try_coveredby' LANGUAGE C IMMUTABLE STRICT PARALLEL SAFE COST 820;
CREATE FUNCTION karvoiss_covers(scene bytea) RETURNS boolean
    AS 'MODULE_PATHNAME', 'karvoiss_sql_covers' LANGUAGE C IMMUTABLE STRICT PARALLEL SAFE COST 820;
CREATE FUNCTION karvoiss_try_covers(scene bytea) RETURNS boolean
    AS 'MODULE_PATHNAME', 'karvoiss_sql_try_covers' LANGUAGE C IMMUTABLE STRICT PARALLEL SAFE COST 820;
CREATE FUNCTION karvoiss_crosses(scene bytea) RETURNS boolean
    AS 'MODULE_PATHNAME', 'karvoiss_sql_crosses' LANGUAGE C IMMUTABLE STRICT PARALLEL SAFE COST 820;
CREATE FUNCTION karvoiss_try_crosses(scene bytea) RETURNS boolean
    AS 'MODULE_PATHNAME', 'karvoiss_sql_try_crosses' LANGUAGE C IMMUTABLE STRICT PARALLEL SAFE COST 820;
CREATE FUNCTION karvoiss_overlaps(scene bytea) RETURNS boolean
    AS 'MODULE_PATHNAME', 'karvoiss_sql_overlaps' LANGUAGE C IMMUTABLE STRICT PARALLEL SAFE COST 820;
CREATE FUNCTION karvoiss_try_overlaps(scene bytea) RETURNS boolean
    AS 'MODULE_PATHNAME', 'karvoiss_sql_try_overlaps' LANGUAGE C IMMUTABLE STRICT PARALLEL SAFE COST 820;
CREATE FUNCTION karvoiss_vectors(scene bytea) RETURNS bigint
    AS 'MODULE_PATHNAME', 'karvoiss_sql_vectors' LANGUAGE C IMMUTABLE STRICT PARALLEL SAFE COST 820;
CREATE FUNCTION karvoiss_try_vectors(scene bytea) RETURNS bigint
    AS 'MODULE_PATHNAME', 'karvoiss_sql_try_vectors' LANGUAGE C IMMUTABLE STRICT PARALLEL SAFE COST 820;
CREATE FUNCTION karvoiss_vectors(scene bytea, want_f integer, want_g integer) RETURNS bigint
    AS 'MODULE_PATHNAME', 'karvoiss_sql_wanted_vectors' LANGUAGE C IMMUTABLE STRICT PARALLEL SAFE COST 820;
CREATE FUNCTION karvoiss_try_vectors(scene bytea, want_f integer, want_g integer) RETURNS bigint
    AS 'MODULE_PATHNAME', 'karvoiss_sql_try_wanted_vectors' LANGUAGE C IMMUTABLE STRICT PARALLEL SAFE COST 820;
CREATE FUNCTION karvoiss_area_both(scene bytea) RETURNS bigint
    AS 'MODULE_PATHNAME', 'karvoiss_sql_area_both' LANGUAGE C IMMUTABLE STRICT PARALLEL SAFE COST 820;
CREATE FUNCTION karvoiss_try_area_both(scene bytea) RETURNS bigint
    AS 'MODULE_PATHNAME', 'karvoiss_sql_try_area_both' LANGUAGE C IMMUTABLE STRICT PARALLEL SAFE COST 820;
CREATE FUNCTION karvoiss_area_f_only(scene bytea) RETURNS bigint
    AS 'MODULE_PATHNAME', 'karvoiss_sql_area_f_only' LANGUAGE C IMMUTABLE STRICT PARALLEL SAFE COST 820;
CREATE FUNCTION karvoiss_try_area_f_only(scene bytea) RETURNS bigint
    AS 'MODULE_PATHNAME', 'karvoiss_sql_try_area_f_only' LANGUAGE C IMMUTABLE STRICT PARALLEL SAFE COST 820;
CREATE FUNCTION karvoiss_area_g_only(scene bytea) RETURNS bigint
    AS 'MODULE_PATHNAME', 'karvoiss_sql_area_g_only' LANGUAGE C IMMUTABLE STRICT PARALLEL SAFE COST 820;
CREATE FUNCTION karvoiss_try_area_g_only(scene bytea) RETURNS bigint
    AS 'MODULE_PATHNAME', 'karvoiss_sql_try_area_g_only' LANGUAGE C IMMUTABLE STRICT PARALLEL SAFE COST 820;

-- Number and place of a refusal without an error, 0 where there is none: of the cells, and of what the names say; the refusals in words
CREATE FUNCTION karvoiss_number(scene bytea) RETURNS integer
    AS 'MODULE_PATHNAME', 'karvoiss_sql_cells_number' LANGUAGE C IMMUTABLE STRICT PARALLEL SAFE COST 820;
CREATE FUNCTION karvoiss_place(scene bytea) RETURNS bigint
    AS 'MODULE_PATHNAME', 'karvoiss_sql_cells_place' LANGUAGE C IMMUTABLE STRICT PARALLEL SAFE COST 820;
CREATE FUNCTION karvoiss_object_number(wkb bytea) RETURNS integer
    AS 'MODULE_PATHNAME', 'karvoiss_sql_object_number' LANGUAGE C IMMUTABLE STRICT PARALLEL SAFE COST 1300;
CREATE FUNCTION karvoiss_object_place(wkb bytea) RETURNS bigint
    AS 'MODULE_PATHNAME', 'karvoiss_sql_object_place' LANGUAGE C IMMUTABLE STRICT PARALLEL SAFE COST 1300;
CREATE FUNCTION karvoiss_summary_number(object bytea) RETURNS integer
    AS 'MODULE_PATHNAME', 'karvoiss_sql_summary_number' LANGUAGE C IMMUTABLE STRICT PARALLEL SAFE COST 400;
CREATE FUNCTION karvoiss_summary_place(object bytea) RETURNS bigint
    AS 'MODULE_PATHNAME', 'karvoiss_sql_summary_place' LANGUAGE C IMMUTABLE STRICT PARALLEL SAFE COST 400;
CREATE FUNCTION karvoiss_split_number(scene bytea) RETURNS integer
    AS 'MODULE_PATHNAME', 'karvoiss_sql_split_number' LANGUAGE C IMMUTABLE STRICT PARALLEL SAFE COST 5700;
CREATE FUNCTION karvoiss_split_place(scene bytea) RETURNS bigint
    AS 'MODULE_PATHNAME', 'karvoiss_sql_split_place' LANGUAGE C IMMUTABLE STRICT PARALLEL SAFE COST 5700;
CREATE FUNCTION karvoiss_words(number integer) RETURNS text
    AS 'MODULE_PATHNAME', 'karvoiss_sql_words' LANGUAGE C IMMUTABLE STRICT PARALLEL SAFE COST 10;
