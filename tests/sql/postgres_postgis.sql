-- What PostGIS hands over, where it is installed: shapes of a Multi kind in two dimensions are taken by ST_AsBinary, and by the cast that PostGIS brings, as long as they have no SRID; of all else it is
-- said what is not taken. And the cells of a few pairs beside ST_Relate.
create extension postgis;

create table handed (about text, bytes bytea, expected text);
insert into handed values
    ('points', ST_AsBinary('MULTIPOINT(1 2, 3 4)'::geometry), 'taken'),
    ('a line', ST_AsBinary(ST_Multi('LINESTRING(1 2, 3 4)'::geometry)), 'taken'),
    ('a region with a hole', ST_AsBinary(ST_Multi('POLYGON((0 0, 9 0, 9 9, 0 9, 0 0), (1 1, 2 1, 2 2, 1 1))'::geometry)), 'taken'),
    ('with a SRID, by ST_AsBinary', ST_AsBinary(ST_SetSRID('MULTIPOINT(1 2)'::geometry, 4326)), 'taken'),
    ('high byte first', ST_AsBinary('MULTIPOINT(1 2)'::geometry, 'XDR'), 'taken'),
    ('an empty shape', ST_AsBinary('MULTIPOLYGON EMPTY'::geometry), 'taken'),
    ('by the cast', 'MULTIPOINT(1 2)'::geometry::bytea, 'taken'),
    ('a single point', ST_AsBinary('POINT(1 2)'::geometry), '24 at 1'),
    ('a single line', ST_AsBinary('LINESTRING(1 2, 3 4)'::geometry), '24 at 1'),
    ('a single polygon', ST_AsBinary('POLYGON((0 0, 9 0, 9 9, 0 0))'::geometry), '24 at 1'),
    ('a collection', ST_AsBinary('GEOMETRYCOLLECTION(POINT(1 2))'::geometry), '24 at 1'),
    ('a curve', ST_AsBinary('MULTICURVE(CIRCULARSTRING(0 0, 1 1, 2 0))'::geometry), '24 at 1'),
    ('with Z', ST_AsBinary('MULTIPOINT Z(1 2 3)'::geometry), '24 at 1'),
    ('with M', ST_AsBinary('MULTIPOINT M(1 2 3)'::geometry), '24 at 1'),
    ('with Z, by ST_AsEWKB', ST_AsEWKB('MULTIPOINT Z(1 2 3)'::geometry), '24 at 1'),
    ('with a SRID, by ST_AsEWKB', ST_AsEWKB(ST_SetSRID('MULTIPOINT(1 2)'::geometry, 4326)), '24 at 1'),
    ('with a SRID, by the cast', ST_SetSRID('MULTIPOINT(1 2)'::geometry, 4326)::bytea, '24 at 1'),
    ('with Z, by ST_Force2D', ST_AsBinary(ST_Force2D('MULTIPOINT Z(1 2 3)'::geometry)), 'taken'),
    ('a point without coordinates', ST_AsBinary('MULTIPOINT(1 2, EMPTY)'::geometry), '25 at 35'),
    ('off the grid', ST_AsBinary('MULTIPOINT(1.5 2)'::geometry), '25 at 14'),
    ('out of range', ST_AsBinary('MULTIPOINT(1 10000001)'::geometry), '25 at 22'),
    ('polygons with a side in common', ST_AsBinary('MULTIPOLYGON(((0 0, 1 0, 1 1, 0 0)), ((0 0, 1 1, 0 1, 0 0)))'::geometry), '13 at 0'),
    ('a line across itself', ST_AsBinary('MULTILINESTRING((0 0, 2 2, 2 0, 0 2))'::geometry), '12 at 0');

do $do$
declare
    wrong record;
begin
    for wrong in select about, expected, taken from handed, lateral (select coalesce(nullif(karvoiss_object_number(bytes), 0) || ' at ' || karvoiss_object_place(bytes), 'taken') as taken) as f where taken <> expected loop
        raise warning '%: % and not %', wrong.about, wrong.taken, wrong.expected;
    end loop;
    if found then raise exception 'something else is taken of PostGIS'; end if;
end $do$;

-- shapes of every kind on a small grid, many of them on top of each other: each pair that can be split has ST_Relate's cells
create table few as
    select row_number() over () as id, ST_Multi(g) as g from (
        select ST_MakeEnvelope(x, y, x + w, y + w) as g from generate_series(0, 4, 2) as x, generate_series(0, 4, 2) as y, generate_series(2, 4, 2) as w
        union all select ST_MakeLine(ST_MakePoint(x, y), ST_MakePoint(x + dx, y + 4 - dx)) from generate_series(0, 4, 2) as x, generate_series(0, 4, 2) as y, generate_series(0, 4, 2) as dx
        union all select ST_Collect(ST_MakePoint(x, y), ST_MakePoint(x + 2, y)) from generate_series(0, 6, 2) as x, generate_series(0, 6, 2) as y
        union all select 'POLYGON EMPTY' union all select 'LINESTRING EMPTY' union all select 'MULTIPOINT EMPTY'
        union all select 'POLYGON((0 0, 8 0, 8 8, 0 8, 0 0), (2 2, 6 2, 6 6, 2 6, 2 2))' union all select 'LINESTRING(0 0, 4 0, 4 4, 0 4, 0 0)' union all select 'MULTILINESTRING((4 4, 0 0), (4 4, 8 0), (4 4, 4 8))') as s;
do $do$
declare
    wrong record;
    kinds bigint;
begin
    create temporary table beside as
        select ST_AsText(f.g) as f, ST_AsText(g.g) as g, ST_Relate(f.g, g.g) as theirs,
            karvoiss_try_cells(karvoiss_try_split(karvoiss_scene(karvoiss_object(ST_AsBinary(f.g)), karvoiss_object(ST_AsBinary(g.g))))) as ours from few as f, few as g;
    for wrong in select * from beside where ours <> theirs limit 10 loop
        raise warning '% beside %: % and not %', wrong.f, wrong.g, wrong.ours, wrong.theirs;
    end loop;
    if found then raise exception 'other cells than ST_Relate has'; end if;
    if (select count(ours) from beside) < 3000 or (select count(distinct ours) from beside) < 60 then raise exception 'too few pairs were compared'; end if;
end $do$;
select format('postgis: %s pairs, %s of them split on the grid, with the cells of ST_Relate, %s different ones', count(*), count(ours), count(distinct ours)) from beside;
