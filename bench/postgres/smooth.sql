-- Smoothing by window sums. A pass and the reflection commute, so the samples are extended once, by the reach of all
-- passes, and the cells beyond the ends are left out of what comes of it. Extending is not timed.
create table samples (at int primary key, v bigint);
create table extended (i int primary key, v bigint);

create function extend(n int, reach int) returns void language sql as $$
    truncate extended;
    insert into extended
        select i, v
        from generate_series(-reach, n - 1 + reach) as i,
            lateral (select (i % (2 * n) + 2 * n) % (2 * n) as turned) as place
            join samples on at = least(turned, 2 * n - 1 - turned)
$$;

-- The query of all passes. sum(bigint) is numeric, hence the cast.
create function smoothing(radius int, inner_weight int, edge int, passes int, n int) returns text language plpgsql as $$
declare
    query text := 'select i, v from extended';
    weighed text := format('%s * sum(v) over (order by i rows between %s preceding and %s following)::bigint',
        inner_weight, radius, radius);
begin
    if edge > 0 then
        weighed := weighed || format(' + %s * (lag(v, %s) over (order by i) + lead(v, %s) over (order by i))',
            edge, radius + 1, radius + 1);
    end if;
    for pass in 1 .. passes loop
        query := format('select i, %s as v from (%s) as before', weighed, query);
    end loop;
    return format('select i, v from (%s) as last where i between 0 and %s', query, n - 1);
end $$;

-- Nanoseconds of each round. What is computed is added up and not sent.
create function timed(query text, most int, fewest int, seconds float) returns setof float language plpgsql as $$
declare
    began timestamptz := clock_timestamp();
    start timestamptz;
    total numeric;
begin
    execute format('select sum(v) from (%s) as results', query) into total;
    for n in 1 .. most loop
        start := clock_timestamp();
        execute format('select sum(v) from (%s) as results', query) into total;
        return next 1e9 * extract(epoch from clock_timestamp() - start);
        exit when n >= fewest and extract(epoch from clock_timestamp() - began) > seconds;
    end loop;
end $$;
