-- What bench/postgres measures, in a server that has both extensions. Wants the variable file: lines of a layer's name, a shape as text, and its number in the layer.
\pset format unaligned
\pset fieldsep ' | '
\pset footer off
set client_min_messages = warning;
select format('%s, %s', split_part(version(), ' on ', 1), postgis_full_version()) as versions;

-- ---- The layers, fitted to the grid ------------------------------------------

create table raw (layer text, wkt text, shape integer);
copy raw from :'file' csv;

-- each layer as large as the range allows, each shape rounded alone
create table fitted as
    with read as (select layer, row_number() over () as id, ST_Multi(ST_Force2D(ST_GeomFromText(wkt))) as g from raw),
        extent as (select layer, ST_Extent(g)::box2d as box from read group by layer),
        fit as (select layer, 19990000 / greatest(ST_XMax(box) - ST_XMin(box), ST_YMax(box) - ST_YMin(box)) as scale, (ST_XMin(box) + ST_XMax(box)) / 2 as x, (ST_YMin(box) + ST_YMax(box)) / 2 as y from extent)
    select layer, id, ST_Multi(ST_SnapToGrid(ST_Affine(g, scale, 0, 0, scale, -x * scale, -y * scale), 1)) as g from read join fit using (layer);

-- A coverage of 10,000 parcels of 64 segments, whose fences wobble
create function fence(upright boolean, x integer, y integer, k integer) returns geometry language sql immutable as $$
    select case when upright then ST_MakePoint(1000 * x + wobble, 1000 * y + 62 * k) else ST_MakePoint(1000 * x + 62 * k, 1000 * y + wobble) end
    from (select case when k = 0 then 0 else (x * 7919 + y * 104729 + k * 1299709 + case when upright then 15485863 else 0 end) % 99 - 49 end as wobble) as w
$$;
insert into fitted
    select 'made coverage', 1000000 + 100 * y + x, ST_Multi(ST_MakePolygon(ST_MakeLine(array(
        select fence(false, x, y, k) from generate_series(0, 15) as k) || array(select fence(true, x + 1, y, k) from generate_series(0, 15) as k)
        || fence(false, x + 1, y + 1, 0) || array(select fence(false, x, y + 1, k) from generate_series(15, 1, -1) as k)
        || fence(true, x, y + 1, 0) || array(select fence(true, x, y, k) from generate_series(15, 0, -1) as k))))
    from generate_series(0, 99) as x, generate_series(0, 99) as y;

create table shape as
    select layer, id, g, ST_AsBinary(g) as wkb, karvoiss_try_object(ST_AsBinary(g)) as object, karvoiss_try_summary(karvoiss_try_object(ST_AsBinary(g))) as summary
    from fitted where not ST_IsEmpty(g) and ST_IsValid(g);
create index on shape using gist (g);
create index on shape using gist (karvoiss_box(summary));
create index on shape (layer, id);
vacuum analyze shape;

-- ---- All pairs beside ST_Relate ----------------------------------------------

create table compared as
    select f.layer, f.id as f, g.id as g, ST_Relate(f.g, g.g) as theirs, told is not null as far, uncut is null and told is null as cut,
        coalesce(told, uncut, karvoiss_try_cells(karvoiss_try_split(scene))) as ours, case when told is null and uncut is null then karvoiss_split_number(scene) else 0 end as number
    from shape as f join shape as g on f.layer = g.layer and g.id > f.id,
        lateral (select karvoiss_far_cells(f.summary, g.summary) as told) as first,
        lateral (select case when told is null then karvoiss_scene(f.object, g.object) end as scene) as second,
        lateral (select karvoiss_try_cells(scene) as uncut) as third
    where f.object is not null and g.object is not null and (f.layer not in ('rivers', 'province lines', 'towns and countries', 'made coverage') or f.g && g.g);

create view layers as
    select layer, count(*) as shapes, count(*) filter (where number is null) as bad, count(*) filter (where number = 20) as long, count(*) filter (where number not in (0, 20)) as otherwise
    from fitted, lateral (select case when not ST_IsEmpty(g) and ST_IsValid(g) then karvoiss_object_number(ST_AsBinary(g)) end as number) as n group by layer;

\echo
\echo 'All pairs of a layer (of the four large ones those whose boxes meet), our cells beside ST_Relate:'
\echo
select layer, shapes, bad as "not valid or vanished", long as "refused (20)", otherwise as "refused otherwise", count(*) as pairs, count(*) filter (where far) as "told by summaries",
    count(*) filter (where number = 19) as "off the grid (19)", count(*) filter (where number not in (0, 19)) as "with another refusal", count(*) filter (where ours = theirs) as equal, count(*) filter (where ours <> theirs) as different
from compared join layers using (layer) group by layer, shapes, bad, long, otherwise order by layer;
\echo
select format('In all %s pairs: %s equal, %s off the grid, %s different', count(*), count(*) filter (where ours = theirs), count(*) filter (where number = 19), count(*) filter (where ours <> theirs)) as together from compared;

\echo
\echo 'Each difference:'
\echo
select c.layer, c.f, c.g, theirs, ours, left(ST_AsText(ff.g), 400) as f_shape, left(ST_AsText(gg.g), 400) as g_shape
from compared as c join shape as ff on ff.id = c.f join shape as gg on gg.id = c.g where ours <> theirs order by 1, 2, 3 limit 40;

-- ---- Times a call ------------------------------------------------------------

set max_parallel_workers_per_gather = 0;

-- processor time of this process, and of a query the least of three runs, of which each asks it as often as takes a tenth of a second; one run is enough for a query of more than a second
create function used() returns double precision language sql as $$ select split_part(pg_read_file('/proc/self/schedstat'), ' ', 1)::double precision / 1e9 $$;
create function seconds(query text) returns double precision language plpgsql as $$
declare
    begun double precision;
    asked integer;
    least_one double precision;
begin
    for run in 1 .. 3 loop
        begun := used();
        asked := 0;
        while asked = 0 or used() - begun < 0.1 loop
            execute query;
            asked := asked + 1;
        end loop;
        least_one := least(least_one, (used() - begun) / asked);
        exit when least_one > 1;
    end loop;
    return least_one;
end $$;

-- up to 2,000 pairs of a layer that meet, both as they are stored and as the calls want them
create table pair (layer text, f_shape geometry, g_shape geometry, f_wkb bytea, g_wkb bytea, f bytea, g bytea, f_summary bytea, g_summary bytea, scene bytea, split bytea);
alter table pair alter f_shape set storage external, alter g_shape set storage external, alter f_wkb set storage external, alter g_wkb set storage external, alter f set storage external, alter g set storage external,
    alter scene set storage external, alter split set storage external;
insert into pair
    select layer, f_shape, g_shape, f_wkb, g_wkb, f, g, f_summary, g_summary, karvoiss_scene(f, g), karvoiss_split(karvoiss_scene(f, g))
    from (select c.layer, f.g as f_shape, g.g as g_shape, f.wkb as f_wkb, g.wkb as g_wkb, f.object as f, g.object as g, f.summary as f_summary, g.summary as g_summary, row_number() over (partition by c.layer order by c.f, c.g) as n
        from compared as c join shape as f on f.id = c.f join shape as g on g.id = c.g where not far and number = 0) as met
    where n <= 2000;
create index on pair (layer);
vacuum analyze pair;
set enable_seqscan = off;

create function microseconds(call text, layer text) returns numeric language sql as $$
    select round((1e6 * seconds(format('select count(%s) from pair where layer = %L', call, layer)) / (select count(*) from pair where pair.layer = microseconds.layer))::numeric, 2)
$$;

\echo
\echo 'Microseconds of processor time a pair, of pairs that meet, the row and fetching the values included:'
\echo
select layer, count(*) as pairs, round(avg(length(split) - 6) / 38) as segments, microseconds('ST_Relate(f_shape, g_shape)', layer) as "ST_Relate", microseconds('ST_Intersects(f_shape, g_shape)', layer) as "ST_Intersects",
    microseconds('karvoiss_cells(split)', layer) as "cells of a stored scene", microseconds('karvoiss_try_cells(karvoiss_scene(f, g))', layer) as "cells of two objects",
    microseconds('karvoiss_split(scene)', layer) as split, microseconds('karvoiss_far(f_summary, g_summary)', layer) as far, microseconds('bit_count(split)', layer) as "fetching a scene"
from pair group by layer having count(*) >= 50 order by layer;

\echo
\echo 'Microseconds of processor time a call on one shape, the same included:'
\echo
select layer, round(avg(length(f) - 3) / 38) as segments, microseconds('ST_AsBinary(f_shape)', layer) as "ST_AsBinary", microseconds('karvoiss_object(f_wkb)', layer) as karvoiss_object, microseconds('karvoiss_summary(f)', layer) as karvoiss_summary,
    microseconds('karvoiss_box(f_summary)', layer) as karvoiss_box
from pair group by layer having count(*) >= 50 order by layer;

-- COST: what a call takes in calls of a plain operator, by the Boston tracts
set enable_seqscan = on;
create table plain as select i as n from generate_series(1, 1000000) as i;
vacuum analyze plain;
create function operator_nanoseconds() returns numeric language sql as $$
    select round((1e9 * (seconds(format('select count(*) from plain where %s', string_agg('n <> -' || k, ' and '))) - seconds('select count(*) from plain where n <> -1')) / 39 / 1e6)::numeric, 2) from generate_series(1, 40) as k
$$;
\echo
select format('%s ns', operator_nanoseconds()) as "a plain operator";
set enable_seqscan = off;
select call, round(1000 * (microseconds(call, 'Boston tracts') - microseconds(fetching, 'Boston tracts')) / operator_nanoseconds()) as cost
from (values ('karvoiss_object(f_wkb)', 'bit_count(f_wkb)'), ('karvoiss_summary(f)', 'bit_count(f)'), ('karvoiss_box(f_summary)', 'f_summary'), ('karvoiss_far(f_summary, g_summary)', 'f_summary'),
    ('karvoiss_far_cells(f_summary, g_summary)', 'f_summary'), ('karvoiss_scene(f, g)', 'bit_count(f) + bit_count(g)'), ('karvoiss_split(scene)', 'bit_count(scene)'), ('karvoiss_cells(split)', 'bit_count(split)'),
    ('karvoiss_bits(split)', 'bit_count(split)'), ('karvoiss_relate(split, ''T********'')', 'bit_count(split)'), ('karvoiss_touches(split)', 'bit_count(split)'), ('karvoiss_vectors(split)', 'bit_count(split)'),
    ('karvoiss_area_both(split)', 'bit_count(split)'), ('ST_Relate(f_shape, g_shape)', 'length(f_shape::bytea) + length(g_shape::bytea)')) as v (call, fetching);

set enable_seqscan = on;

-- ---- Joins of 10,000 shapes --------------------------------------------------

create function join_of(layer text, theirs text, ours text) returns table (shapes bigint, pairs bigint, theirs_seconds numeric, ours_seconds numeric, boxes_theirs numeric, boxes_ours numeric) language plpgsql as $$
declare
    their_join text := format('from shape as f join shape as g on f.g && g.g and g.id > f.id and f.layer = g.layer where f.layer = %L and f.object is not null and g.object is not null', layer);
    our_join text := format('from shape as f join shape as g on karvoiss_box(f.summary) && karvoiss_box(g.summary) and g.id > f.id and f.layer = g.layer where f.layer = %L', layer);
begin
    execute 'select count(*) ' || their_join into pairs;
    execute format('select count(*) from shape where layer = %L and object is not null', layer) into shapes;
    theirs_seconds := round(seconds(format('select count(%s) %s', theirs, their_join))::numeric, 3);
    ours_seconds := round(seconds(format('select count(%s) %s', ours, our_join))::numeric, 3);
    boxes_theirs := round(seconds('select count(*) ' || their_join)::numeric, 3);
    boxes_ours := round(seconds('select count(*) ' || our_join)::numeric, 3);
    return next;
end $$;

\echo
\echo 'Joins, seconds of processor time:'
\echo
select layer, asked, shapes, pairs, theirs_seconds as "PostGIS", ours_seconds as "the extension", boxes_theirs as "boxes, PostGIS", boxes_ours as "boxes, the extension" from (values
    ('made coverage', 'all nine cells', 'ST_Relate(f.g, g.g)', 'karvoiss_cells(karvoiss_scene(f.object, g.object))'),
    ('made coverage', 'do they touch?', 'nullif(ST_Touches(f.g, g.g), false)', 'nullif(karvoiss_touches(karvoiss_scene(f.object, g.object)), false)'),
    ('made coverage', 'all nine cells, from WKB', 'ST_Relate(f.g, g.g)', 'karvoiss_cells(karvoiss_scene(karvoiss_object(ST_AsBinary(f.g)), karvoiss_object(ST_AsBinary(g.g))))'),
    ('province lines', 'all nine cells', 'ST_Relate(f.g, g.g)', 'karvoiss_try_cells(karvoiss_scene(f.object, g.object))'),
    ('province lines', 'all nine cells, split first', 'ST_Relate(f.g, g.g)', 'karvoiss_try_cells(karvoiss_try_split(karvoiss_scene(f.object, g.object)))')
) as v (layer, asked, theirs, ours), lateral join_of(layer, theirs, ours) as j;

set max_parallel_workers_per_gather = 2;
\echo
explain (costs off) select count(karvoiss_cells(karvoiss_scene(f.object, g.object))) from shape as f join shape as g on karvoiss_box(f.summary) && karvoiss_box(g.summary) and g.id > f.id and f.layer = g.layer where f.layer = 'made coverage';
