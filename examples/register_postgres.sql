-- register_postgres.sql: a register of shapes in PostgreSQL. Shapes come as well-known binary, as PostGIS gives it by ST_AsBinary(ST_Multi(g)); the object and its summary are kept beside it, and an
-- index over the boxes finds the pairs that may meet. The register is one query. At the end the same over a coverage of 10,000 parcels, with the plan.
--
--     psql -f register_postgres.sql      with the extension installed (make postgres-install)

create extension if not exists karvoiss;

create table shape (
    id integer generated always as identity primary key,
    name text not null,
    wkb bytea not null,
    object bytea not null generated always as (karvoiss_object(wkb)) stored,
    summary bytea not null generated always as (karvoiss_summary(karvoiss_object(wkb))) stored
);
create index shape_boxes on shape using gist (karvoiss_box(summary));

-- ---- Shapes ----------------------------------------------------------------

-- Well-known binary, high byte first, of points, one line and one outline, given as x, y, x, y ..
create function coordinates(xy float8[]) returns bytea language sql immutable as
    $$ select string_agg(float8send(v), '' order by n) from unnest(xy) with ordinality as c (v, n) $$;
create function points(variadic xy float8[]) returns bytea language sql immutable as
    $$ select '\x00'::bytea || int4send(4) || int4send(count(*)::integer) || string_agg('\x00'::bytea || int4send(1) || coordinates(xy[n : n + 1]), '' order by n)
       from generate_series(1, cardinality(xy), 2) as n $$;
create function line(variadic xy float8[]) returns bytea language sql immutable as
    $$ select '\x00'::bytea || int4send(5) || int4send(1) || '\x00'::bytea || int4send(2) || int4send(cardinality(xy) / 2) || coordinates(xy) $$;
create function region(variadic xy float8[]) returns bytea language sql immutable as
    $$ select '\x00'::bytea || int4send(6) || int4send(1) || '\x00'::bytea || int4send(3) || int4send(1) || int4send(cardinality(xy) / 2) || coordinates(xy) $$;

insert into shape (name, wkb) values
    ('field', region(0, 0, 4, 0, 4, 4, 0, 4, 0, 0)),
    ('yard', region(4, 0, 8, 0, 8, 2, 4, 2, 4, 0)),
    ('plot', region(3, 6, 4, 4, 5, 6, 3, 6)),
    ('pond', region(1, 1, 3, 1, 3, 3, 1, 3, 1, 1)),
    ('road', line(-2, 2, 10, 2)),
    ('ditch', line(6, 0, 6, 5)),
    ('wells', points(2, 2, 4, 2, 9, 9)),
    ('isle', region(70, 70, 90, 70, 80, 95, 70, 70)),
    ('track', line(0, 0, 5, 3));

-- A shape that is not taken is not kept: the error says what is wrong, where, and what to do.
\set ON_ERROR_STOP off
insert into shape (name, wkb) values ('open', region(0, 0, 4, 0, 4, 4, 0, 4));
insert into shape (name, wkb) values ('half', line(0.5, 0, 4, 0));
\set ON_ERROR_STOP on

-- ---- The register ----------------------------------------------------------

-- Every pair: by the two summaries where these tell it, else from the outlines, split where they cross. A pair that crosses off the grid has no cells, and a number.
select f.name as f, g.name as g, coalesce(karvoiss_far_cells(f.summary, g.summary), karvoiss_try_cells(split)) as cells,
    karvoiss_far(f.summary, g.summary) as far, karvoiss_try_touches(split) as touches, karvoiss_try_crosses(split) as crosses,
    karvoiss_try_area_both(split) / 2::float8 as shared, nullif(karvoiss_split_number(scene), 0) as refusal
from shape as f join shape as g on g.id > f.id,
    lateral (select case when not karvoiss_far(f.summary, g.summary) then karvoiss_scene(f.object, g.object) end as scene) as together,
    lateral (select karvoiss_try_split(scene) as split) as cut
order by f.id, g.id;

-- ---- Ten thousand parcels --------------------------------------------------

truncate shape restart identity;
insert into shape (name, wkb)
    select format('parcel %s, %s', x, y), region(10 * x, 10 * y, 10 * x + 10, 10 * y, 10 * x + 10, 10 * y + 10, 10 * x, 10 * y + 10, 10 * x, 10 * y)
    from generate_series(0, 99) as x, generate_series(0, 99) as y;
analyze shape;

-- Of the pairs whose boxes meet, found by the index: 19,800 share a fence, 19,602 a corner post.
create view register as
    select f.id as f, g.id as g, karvoiss_cells(karvoiss_scene(f.object, g.object)) as cells
    from shape as f join shape as g on karvoiss_box(g.summary) && karvoiss_box(f.summary) and g.id > f.id;

set max_parallel_workers_per_gather = 0;
explain (costs off) select * from register;
select cells, count(*) from register group by cells order by cells;
