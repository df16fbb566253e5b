-- What the office's database does by itself. office/migrate lays it anew, into a new database and into an older one: a
-- function that goes, or comes to return something else, is dropped by a numbered file.

SET LOCAL check_function_bodies = off;

-- Ends a statement with a reason, where that is so.
CREATE OR REPLACE FUNCTION refuse(is_so boolean, says text, code text DEFAULT 'no_data_found') RETURNS void
    LANGUAGE plpgsql AS $$
BEGIN
    IF is_so THEN
        RAISE EXCEPTION '%', says USING ERRCODE = code;
    END IF;
END $$;

-- ---- Boxes, orders and readings

-- A CONFIRM has its readings in the database before it stands in the table.
CREATE OR REPLACE FUNCTION confirm_is_stored() RETURNS trigger LANGUAGE plpgsql AS $$
BEGIN
    PERFORM refuse(NEW.confirms > (SELECT stored FROM boxes WHERE name = NEW.box),
        format('the readings of %s that %s confirms are not stored', NEW.box, NEW.line), 'check_violation');
    RETURN NEW;
END $$;
CREATE OR REPLACE TRIGGER confirm_is_stored BEFORE INSERT OR UPDATE ON orders
    FOR EACH ROW WHEN (NEW.confirms IS NOT NULL AND NEW.state = 'pending') EXECUTE FUNCTION confirm_is_stored();

-- Takes a box as it shows itself at the next contact, as after an older dump was restored: its open orders are ended,
-- since nobody knows which of them were done, and returned for a person to look at.
CREATE OR REPLACE FUNCTION take_as_it_is(of_box text) RETURNS SETOF orders LANGUAGE sql AS $$
    UPDATE boxes SET number = NULL, confirmed = NULL WHERE name = of_box;
    UPDATE orders SET state = 'given_up', answer = 'given up', ended_at = now()
    WHERE box = of_box AND state IN ('pending', 'queued') RETURNING *
$$;

-- The first contact with a box: it says where its numbers go on. What it has confirmed then was stored elsewhere.
CREATE OR REPLACE FUNCTION meet_box(of_box text, of_number bigint, of_confirmed bigint) RETURNS void LANGUAGE sql AS $$
    WITH met AS (
        UPDATE boxes SET number = of_number, confirmed = of_confirmed, stored = greatest(stored, of_confirmed)
        WHERE name = of_box AND number IS NULL RETURNING name)
    SELECT refuse(NOT EXISTS (SELECT FROM met), format('the box %s is known already', of_box))
$$;

-- Whether a telegram's status byte says that its values don't hold: a permanent or an application error (EN 13757-3:
-- without its frame, after identification number, manufacturer, version, medium and access number).
CREATE OR REPLACE FUNCTION has_error(body bytea) RETURNS boolean LANGUAGE sql IMMUTABLE AS $$
    SELECT length(body) > 9 AND (get_byte(body, 9) & 8 <> 0 OR get_byte(body, 9) & 3 = 2)
$$;

-- Makes the partitions of these months, where they aren't there.
CREATE OR REPLACE FUNCTION make_months(first date, count integer) RETURNS void LANGUAGE plpgsql AS $$
DECLARE
    one record;
BEGIN
    FOR one IN SELECT whole, whole || to_char(begins, '_YYYY_MM') AS part, begins
               FROM unnest(ARRAY['readings', 'points']) AS whole, generate_series(date_trunc('month', first::timestamp),
                   first::timestamp + (count - 1) * interval '1 month', interval '1 month') AS begins
               WHERE to_regclass(whole || to_char(begins, '_YYYY_MM')) IS NULL LOOP
        PERFORM pg_advisory_xact_lock(hashtext('make_months'));
        EXECUTE format('CREATE TABLE IF NOT EXISTS %I PARTITION OF %I FOR VALUES FROM (%L) TO (%L)',
                       one.part, one.whole, one.begins::date, one.begins + interval '1 month');
    END LOOP;
END $$;
SELECT make_months(current_date, 13);

-- The first month whose readings weren't dropped.
CREATE OR REPLACE FUNCTION first_month() RETURNS date LANGUAGE sql STABLE AS $$
    SELECT min(to_date(right(inhrelid::regclass::text, 7), 'YYYY_MM')) FROM pg_inherits
    WHERE inhparent = 'readings'::regclass
$$;

-- Drops the readings and points of the months before a day, with the due-date values that only they have. No serial of
-- them is taken again (boxes.stored). Values of days that rest on them stay, and decide no month any more (supply.py).
CREATE OR REPLACE FUNCTION drop_months_before(day date) RETURNS SETOF text LANGUAGE plpgsql AS $$
DECLARE
    of_month text;
BEGIN
    DELETE FROM due_readings WHERE month < date_trunc('month', day)::date;
    FOR of_month IN
        SELECT inhrelid::regclass::text FROM pg_inherits WHERE inhparent IN ('readings'::regclass, 'points'::regclass)
        AND to_date(right(inhrelid::regclass::text, 7), 'YYYY_MM') < date_trunc('month', day) ORDER BY 1
    LOOP
        EXECUTE format('DROP TABLE %s', of_month);
        RETURN NEXT of_month;
    END LOOP;
END $$;

-- One reading a box and serial, in any month; boxes.stored grows with them. (Inserts go through `readings`: no role
-- may write a partition by itself.)
CREATE OR REPLACE FUNCTION readings_follow() RETURNS trigger LANGUAGE plpgsql AS $$
DECLARE
    of_box record;
BEGIN
    FOR of_box IN SELECT box, min(serial) AS first, max(serial) AS last FROM added GROUP BY box LOOP
        UPDATE boxes SET stored = of_box.last WHERE name = of_box.box AND stored < of_box.first;
        PERFORM refuse(NOT FOUND, format('reading %s of %s was stored before', of_box.first, of_box.box),
            'unique_violation');
    END LOOP;
    INSERT INTO to_close AS q SELECT DISTINCT w.fitting, (a.at AT TIME ZONE w.zone)::date, false
    FROM added a JOIN heard w ON (w.box, w.identity) = (a.box, a.identity) AND w.during @> a.at ORDER BY 1, 2
    ON CONFLICT (fitting, day) DO UPDATE SET is_changed = q.is_changed;
    RETURN NULL;
END $$;
CREATE OR REPLACE TRIGGER readings_follow AFTER INSERT ON readings REFERENCING NEW TABLE AS added
    FOR EACH STATEMENT EXECUTE FUNCTION readings_follow();

-- Gives a reading of the collection that goes on another moment, where a later page of it says so.
CREATE OR REPLACE FUNCTION move_reading(of_box text, of_serial bigint, moment timestamptz) RETURNS void
    LANGUAGE sql AS $$
    SELECT queue_day(k.fitting, k.day) FROM (
        SELECT DISTINCT w.fitting, (m.at AT TIME ZONE w.zone)::date AS day
        FROM readings r CROSS JOIN LATERAL (VALUES (r.at), (moment)) AS m (at)
        JOIN heard w ON (w.box, w.identity) = (r.box, r.identity) AND w.during @> m.at
        WHERE (r.box, r.serial) = (of_box, of_serial) ORDER BY 1, 2) k;
    UPDATE readings r SET at = moment FROM boxes b WHERE (r.box, r.serial) = (of_box, of_serial) AND b.name = of_box
      AND r.stored_at > coalesce(b.collected_at, '-infinity')
$$;

-- Finds the last readings of a box's meters anew.
CREATE OR REPLACE FUNCTION find_last_readings(of_box text) RETURNS void LANGUAGE sql AS $$
    UPDATE meters m SET serial = r.serial, heard = r.heard[cardinality(r.heard)], at = r.at, stored_at = r.stored_at,
                        status = CASE WHEN length(r.body) > 9 THEN get_byte(r.body, 9) END
    FROM meters k CROSS JOIN LATERAL (SELECT *, bodies[cardinality(bodies)] AS body FROM readings
        WHERE box = k.box AND identity = k.identity ORDER BY serial DESC LIMIT 1) r
    WHERE k.box = of_box AND m.box = k.box AND m.identity = k.identity
$$;

-- The registered meters of active boxes without a reading within their box's time before a moment. last_heard is by the
-- box's clock; it is NULL where a meter never was heard. A reading was made at the latest when it was stored.
CREATE OR REPLACE FUNCTION overdue_at(moment timestamptz)
RETURNS TABLE (box text, flat text, identity text, last_heard timestamptz, stored_at timestamptz, why text)
LANGUAGE sql STABLE AS $$
    SELECT m.box, m.flat, m.identity, m.heard, m.stored_at, CASE WHEN m.heard IS NULL THEN 'never heard'
        ELSE 'silent' END
    FROM meters m JOIN boxes b ON b.name = m.box
    WHERE b.active AND coalesce(least(m.at, m.stored_at), m.since) < moment - b.overdue_after
$$;

-- The active boxes of which the office hasn't had everything for their time, those that failed last, and those without
-- a meter. since: from when on; fault: what the last collection ended with.
CREATE OR REPLACE FUNCTION stale_boxes_at(moment timestamptz)
RETURNS TABLE (box text, why text, since timestamptz, fault text) LANGUAGE sql STABLE AS $$
    SELECT * FROM (
        SELECT b.name, CASE
                   WHEN b.collected_at IS NULL AND b.made_at < moment - b.stale_after THEN 'never collected'
                   WHEN b.collected_at < moment - b.stale_after THEN 'not collected'
                   WHEN b.fault IS NOT NULL THEN 'failed'
                   WHEN b.number IS NOT NULL AND NOT EXISTS (SELECT FROM meters m WHERE m.box = b.name) THEN 'no meters'
               END AS why, coalesce(b.collected_at, b.made_at), b.fault
        FROM boxes b WHERE b.active) AS of_each
    WHERE why IS NOT NULL
$$;

-- ---- Fittings follow the registers

-- The moment at which a day begins in a house's time zone.
CREATE OR REPLACE FUNCTION day_begins(day date, zone text) RETURNS timestamptz LANGUAGE sql IMMUTABLE AS $$
    SELECT day::timestamp AT TIME ZONE zone
$$;

CREATE OR REPLACE FUNCTION uses_of(of_house text, of_identity text) RETURNS TABLE (use text, vib text)
    LANGUAGE sql STABLE AS $$
    SELECT d.use, d.vib FROM decided_uses d WHERE (d.house, d.identity) = (of_house, of_identity) AND d.use IS NOT NULL
    UNION ALL SELECT t.use, NULL FROM device_types t
    WHERE t.medium = right(of_identity, 2) AND t.use IS NOT NULL AND NOT EXISTS (
        SELECT FROM decided_uses d WHERE (d.house, d.identity) = (of_house, of_identity))
$$;

-- The place for a meter that is fitted: the first one of its use in the flat that has none, or a new one. A meter that
-- was removed in this transaction may come back.
CREATE OR REPLACE FUNCTION free_place(of_house text, of_flat text, of_use text) RETURNS bigint LANGUAGE plpgsql AS $$
DECLARE
    found bigint := (SELECT p.id FROM places p WHERE (p.house, p.flat, p.use) = (of_house, of_flat, of_use)
        AND NOT EXISTS (SELECT FROM fittings f WHERE f.place = p.id AND coalesce(upper(f.during) >= now(), true))
        ORDER BY p.number LIMIT 1);
BEGIN
    INSERT INTO flats (house, flat) VALUES (of_house, of_flat) ON CONFLICT DO NOTHING;
    IF found IS NULL THEN
        INSERT INTO places (house, flat, use, number) SELECT of_house, of_flat, of_use, 1 + coalesce(max(number), 0)
        FROM places WHERE (house, flat, use) = (of_house, of_flat, of_use) RETURNING id INTO found;
    END IF;
    RETURN found;
END $$;

-- Ends a meter's fitting, unless another active box of the house has it in its register; returns its places.
CREATE OR REPLACE FUNCTION end_fitting(of_box text, of_house text, of_identity text) RETURNS bigint[] LANGUAGE sql AS $$
    WITH here AS (
        SELECT id, lower(during) < now() AS was_there FROM fittings
        WHERE (house, identity) = (of_house, of_identity) AND upper_inf(during)
          AND NOT EXISTS (SELECT FROM meters m JOIN boxes b ON b.name = m.box
                          WHERE b.house = of_house AND b.active AND m.identity = of_identity AND m.box <> of_box)),
    gone AS (DELETE FROM fittings f USING here h WHERE h.id = f.id AND NOT h.was_there RETURNING f.place),
    ended AS (UPDATE fittings f SET during = tstzrange(lower(f.during), now()) FROM here h
              WHERE h.id = f.id AND h.was_there RETURNING f.place)
    SELECT array_agg(place) FROM (TABLE gone UNION ALL TABLE ended) k
$$;

-- Begins a meter's fitting at the place, or where that is NULL at a free one; none where its house or use isn't known,
-- or another box has the meter in its register.
CREATE OR REPLACE FUNCTION begin_fitting(of_house text, of_identity text, of_flat text, since timestamptz,
    at_places bigint[]) RETURNS void LANGUAGE plpgsql AS $$
DECLARE
    one record;
BEGIN
    FOR one IN SELECT u.use, u.vib, min(p.id) AS place FROM uses_of(of_house, of_identity) u
               LEFT JOIN places p ON p.id = ANY (at_places) AND p.use = u.use GROUP BY u.use, u.vib LOOP
        CONTINUE WHEN EXISTS (SELECT FROM fittings f WHERE (f.house, f.identity) = (of_house, of_identity)
                              AND upper_inf(f.during) AND f.vib IS NOT DISTINCT FROM coalesce(one.vib, f.vib));
        UPDATE fittings f SET during = tstzrange(lower(during), NULL) FROM places p
        WHERE p.id = f.place AND (p.house, p.flat, p.use) = (of_house, of_flat, one.use) AND f.identity = of_identity
          AND f.vib IS NOT DISTINCT FROM coalesce(one.vib, f.vib) AND upper(f.during) = now();
        IF NOT FOUND THEN
            INSERT INTO fittings (place, house, identity, during, vib)
            VALUES (coalesce(one.place, free_place(of_house, of_flat, one.use)), of_house, of_identity,
                    tstzrange(since, NULL), one.vib);
        END IF;
    END LOOP;
END $$;

-- FIT, OUT, MOVE and SWAP, as office/visit.py writes them into the register. An exchanged meter's place is its
-- successor's, where both have the same use.
CREATE OR REPLACE FUNCTION fittings_follow_meters() RETURNS trigger LANGUAGE plpgsql AS $$
DECLARE
    of_places bigint[];
    of_house text := (SELECT house FROM boxes WHERE name = coalesce(NEW.box, OLD.box) AND active);
BEGIN
    IF of_house IS NOT NULL AND TG_OP <> 'INSERT' THEN
        of_places := end_fitting(OLD.box, of_house, OLD.identity);
    END IF;
    IF of_house IS NOT NULL AND TG_OP <> 'DELETE' THEN
        PERFORM begin_fitting(of_house, NEW.identity, NEW.flat, now(),
            CASE WHEN OLD.flat = NEW.flat THEN of_places END);
    END IF;
    RETURN NULL;
END $$;
CREATE OR REPLACE TRIGGER fittings_follow_meters AFTER INSERT OR DELETE OR UPDATE OF flat, identity ON meters
    FOR EACH ROW EXECUTE FUNCTION fittings_follow_meters();

-- A box gets its house: its meters are fitted there since they are in the register, and its readings are of that house.
CREATE OR REPLACE FUNCTION fittings_follow_boxes() RETURNS trigger LANGUAGE plpgsql AS $$
BEGIN
    IF OLD.house IS NOT NULL THEN
        PERFORM end_fitting(m.box, OLD.house, m.identity) FROM meters m WHERE m.box = NEW.name;
        UPDATE box_houses SET during = tstzrange(lower(during), now()) WHERE box = NEW.name AND upper_inf(during);
    END IF;
    INSERT INTO box_houses (box, house, during)
    SELECT NEW.name, NEW.house, tstzrange((SELECT max(upper(during)) FROM box_houses WHERE box = NEW.name), NULL)
    WHERE NEW.house IS NOT NULL;
    PERFORM begin_fitting(NEW.house, m.identity, m.flat, CASE WHEN OLD.house IS NULL THEN m.since ELSE now() END, NULL)
    FROM (SELECT * FROM meters WHERE box = NEW.name ORDER BY identity) m;
    RETURN NULL;
END $$;
CREATE OR REPLACE TRIGGER fittings_follow_boxes AFTER UPDATE OF house ON boxes
    FOR EACH ROW WHEN (OLD.house IS DISTINCT FROM NEW.house) EXECUTE FUNCTION fittings_follow_boxes();
CREATE OR REPLACE TRIGGER fittings_follow_new_boxes AFTER INSERT ON boxes
    FOR EACH ROW WHEN (NEW.house IS NOT NULL) EXECUTE FUNCTION fittings_follow_boxes();

-- A person says what a meter counts: its use (NULL: none) and, where that isn't the first record of the use's quantity,
-- the VIB of the one that counts.
CREATE OR REPLACE FUNCTION decide_use(of_house text, of_identity text, of_use text, of_vib text DEFAULT NULL)
    RETURNS void LANGUAGE sql AS $$
    INSERT INTO decided_uses (house, identity, use, vib) VALUES (of_house, of_identity, of_use, of_vib)
    ON CONFLICT (house, identity, coalesce(vib, '')) DO UPDATE
        SET use = excluded.use, made_at = now(), made_by = acting();
    UPDATE fittings f SET vib = of_vib FROM places p
    WHERE p.id = f.place AND (f.house, f.identity, p.use) = (of_house, of_identity, of_use) AND f.vib IS NULL
      AND of_vib IS NOT NULL;
    DELETE FROM decided_uses WHERE (house, identity) = (of_house, of_identity) AND of_vib IS NOT NULL AND vib IS NULL;
    UPDATE fittings f SET during = tstzrange(lower(f.during), greatest(now(), lower(f.during) + interval '1 second'))
    FROM places p WHERE p.id = f.place AND (f.house, f.identity) = (of_house, of_identity) AND upper_inf(f.during)
      AND NOT EXISTS (SELECT FROM uses_of(of_house, of_identity) u WHERE u.use = p.use);
    SELECT begin_fitting(of_house, of_identity, m.flat, m.since, NULL)
    FROM (SELECT m.flat, min(m.since) AS since FROM meters m JOIN boxes b ON b.name = m.box
          WHERE b.house = of_house AND b.active AND m.identity = of_identity GROUP BY m.flat ORDER BY m.flat LIMIT 1) m
$$;

-- A fitting's first and last value have a unit of the use's quantity.
CREATE OR REPLACE FUNCTION unit_of_the_use() RETURNS trigger LANGUAGE plpgsql AS $$
BEGIN
    PERFORM refuse(quantity_of(NEW.unit) <> (SELECT u.quantity FROM places p JOIN uses u ON u.use = p.use
        WHERE p.id = NEW.place), format('%s is no unit of what is counted there', NEW.unit), 'check_violation');
    RETURN NEW;
END $$;
CREATE OR REPLACE TRIGGER unit_of_the_use BEFORE INSERT OR UPDATE OF unit, place ON fittings
    FOR EACH ROW WHEN (NEW.unit IS NOT NULL) EXECUTE FUNCTION unit_of_the_use();

CREATE OR REPLACE FUNCTION use_has_factor() RETURNS trigger LANGUAGE plpgsql AS $$
BEGIN
    PERFORM refuse(EXISTS (SELECT FROM uses WHERE use = NEW.use AND (quantity = 'energy' OR use = 'cold water')),
        format('%s has no factor to kWh', NEW.use), 'check_violation');
    RETURN NEW;
END $$;
CREATE OR REPLACE TRIGGER use_has_factor BEFORE INSERT OR UPDATE ON factors
    FOR EACH ROW EXECUTE FUNCTION use_has_factor();

-- ---- Counters

-- How many smallest units the last digit of a record is (EN 13757-3, the VIFs of energies, volumes and allocations).
CREATE OR REPLACE FUNCTION last_digit(vib text) RETURNS numeric LANGUAGE sql IMMUTABLE AS $$
    SELECT CASE WHEN vib ~ '^0[0-7]$' THEN 3600000 * 10::numeric ^ (n - 3)
                WHEN vib ~ '^0[89A-F]$' THEN 1000 * 10::numeric ^ (n - 8)
                WHEN vib ~ '^1[0-7]$' THEN 1000000 * 10::numeric ^ (n - 16 - 6) WHEN vib = '6E' THEN 1000
                WHEN vib ~ '^FB0[01]$' THEN 3600000000000 * 10::numeric ^ (n - 1)
                WHEN vib ~ '^FB0[89]$' THEN 1000000000000 * 10::numeric ^ (n - 9) END
    FROM (SELECT ('x' || right(vib, 2))::bit(8)::integer AS n) AS k
$$;

-- The size of a fitting's counter of so many digits, by the record that counts; NULL where nothing was read yet.
CREATE OR REPLACE FUNCTION size_of(of_fitting bigint, digits integer) RETURNS bigint LANGUAGE sql STABLE AS $$
    SELECT (last_digit(p.vib) * 10::numeric ^ digits)::bigint FROM counted f JOIN day_values d ON d.fitting = f.fitting
    JOIN points p ON (p.month, p.box, p.serial, p.part) = (d.month, d.box, d.serial, d.part)
    WHERE f.fitting = of_fitting AND counts(p, f.vib, f.quantity) AND last_digit(p.vib) * 10::numeric ^ digits < 1e18
    ORDER BY d.day DESC LIMIT 1
$$;

-- No value of a meter is its size or more.
CREATE OR REPLACE FUNCTION value_below_size() RETURNS trigger LANGUAGE plpgsql AS $$
BEGIN
    PERFORM refuse(EXISTS (SELECT FROM day_values WHERE fitting = NEW.id AND amount >= NEW.size AND struck_at IS NULL),
        format('meter %s showed more than its counter has digits', NEW.id), 'check_violation');
    RETURN NEW;
END $$;
CREATE OR REPLACE TRIGGER value_below_size BEFORE INSERT OR UPDATE OF size ON fittings
    FOR EACH ROW WHEN (NEW.size IS NOT NULL) EXECUTE FUNCTION value_below_size();

-- A person says how many digits a meter's counter has.
CREATE OR REPLACE FUNCTION declare_counter(of_house text, of_identity text, digits integer) RETURNS void
    LANGUAGE sql AS $$
    WITH made AS (
        UPDATE fittings f SET size = size_of(f.id, digits) WHERE (f.house, f.identity) = (of_house, of_identity)
          AND size_of(f.id, digits) IS NOT NULL RETURNING id)
    SELECT refuse(NOT EXISTS (SELECT FROM made), format('nothing was read of %s', of_identity))
$$;

-- A person says so. Without a known last value it is the last reading's, marked estimated.
CREATE OR REPLACE FUNCTION restart(of_house text, of_identity text, moment timestamptz, of_last numeric,
    of_first numeric, of_unit text, of_why text) RETURNS void LANGUAGE sql AS $$
    WITH made AS (
        INSERT INTO restarts (fitting, at, last, first, unit, is_estimated, why)
        SELECT f.fitting, moment, coalesce(of_last, d.value), of_first, CASE WHEN of_last IS NULL THEN d.unit
            ELSE of_unit END, of_last IS NULL, of_why
        FROM counted f LEFT JOIN LATERAL (
            SELECT value, unit FROM day_values k WHERE k.fitting = f.fitting AND k.struck_at IS NULL AND k.at <= moment
            ORDER BY k.at DESC LIMIT 1) d ON true
        WHERE (f.house, f.identity, f.quantity) = (of_house, of_identity, quantity_of(of_unit)) AND f.during @> moment
        RETURNING id)
    SELECT refuse(NOT EXISTS (SELECT FROM made),
        format('no meter %s that counts %s was there then', of_identity, of_unit))
$$;

-- An allocator that stored a value at its due date, and shows less after it, began anew then.
CREATE OR REPLACE FUNCTION note_restarts(changed to_close[]) RETURNS void LANGUAGE sql AS $$
    INSERT INTO restarts (fitting, at, last, first, unit, why)
    SELECT DISTINCT ON (s.fitting, s.at) s.fitting, s.at, s.value, 0, s.unit, 'due date'
    FROM unnest(changed) q JOIN counted f ON f.fitting = q.fitting
    JOIN day_values s ON s.fitting = q.fitting AND s.source = 'stored' AND s.struck_at IS NULL
      AND s.day BETWEEN q.day - 40 AND q.day
    JOIN LATERAL (
        SELECT k.amount FROM day_values k WHERE k.fitting = q.fitting AND k.struck_at IS NULL
        AND k.source IN ('stored', 'read') AND k.at > s.at ORDER BY k.at LIMIT 1) n ON n.amount < s.amount
    WHERE f.quantity = 'allocation' ON CONFLICT (fitting, at) DO NOTHING
$$;

-- The counters of models, once something was read of them.
CREATE OR REPLACE FUNCTION note_sizes(changed to_close[]) RETURNS void LANGUAGE sql AS $$
    UPDATE fittings f SET size = size_of(f.id, m.digits) FROM models m
    WHERE f.size IS NULL AND f.id IN (SELECT fitting FROM unnest(changed))
      AND concat_ws('.', m.manufacturer, m.version, m.medium) = substr(f.identity, 10)
      AND NOT EXISTS (SELECT FROM day_values d WHERE d.fitting = f.id AND d.struck_at IS NULL
        AND d.amount >= size_of(f.id, m.digits))
$$;

CREATE OR REPLACE FUNCTION days_follow_facts() RETURNS trigger LANGUAGE plpgsql AS $$
BEGIN
    IF TG_TABLE_NAME = 'restarts' THEN
        PERFORM queue_day(f.fitting, (NEW.at AT TIME ZONE f.zone)::date - k) FROM counted f, generate_series(0, 1) AS k
        WHERE f.fitting = NEW.fitting;
    ELSE
        PERFORM queue_day(d.fitting, d.day) FROM day_values d WHERE d.fitting = NEW.id AND d.struck_at IS NULL
        ORDER BY d.day;
    END IF;
    RETURN NULL;
END $$;
CREATE OR REPLACE TRIGGER days_follow_restarts AFTER INSERT OR UPDATE ON restarts
    FOR EACH ROW EXECUTE FUNCTION days_follow_facts();
CREATE OR REPLACE TRIGGER days_follow_sizes AFTER UPDATE OF most, size ON fittings
    FOR EACH ROW WHEN ((OLD.most, OLD.size) IS DISTINCT FROM (NEW.most, NEW.size)) EXECUTE FUNCTION days_follow_facts();

-- ---- Values of days

-- The record of a reading that counts: the first current or stored one of the quantity, or of the VIB that is named.
-- (The decoder names the unit of a VIB in one byte, or in one after FB.)
CREATE OR REPLACE FUNCTION counts(p points, of_vib text, of_quantity text) RETURNS boolean LANGUAGE sql IMMUTABLE AS $$
    SELECT p.function = 0 AND p.tariff = 0 AND p.subunit = 0 AND p.value IS NOT NULL
       AND quantity_of(p.unit) = of_quantity
       AND CASE WHEN of_vib IS NULL THEN length(p.vib) = 2 OR p.vib ~ '^FB[0-9A-F]{2}$' ELSE p.vib = of_vib END
$$;

-- Whether a telegram has energies of two registers: which one counts a person has to say of a meter of heat and
-- cooling.
CREATE OR REPLACE FUNCTION has_two_energies(of_identity text, of_vib text, of_month date, of_box text,
    of_serial bigint) RETURNS boolean LANGUAGE sql STABLE AS $$
    SELECT right(of_identity, 2) = '0D' AND of_vib IS NULL AND 1 < (
        SELECT count(DISTINCT (p.vib, p.tariff, p.subunit)) FROM points p
        WHERE (p.month, p.box, p.serial) = (of_month, of_box, of_serial) AND p.storage = 0 AND p.function = 0
          AND quantity_of(p.unit) = 'energy' AND p.value IS NOT NULL)
$$;

-- Whether a telegram's own dates allow its current value to be of a moment, or those of a reading (part: NULL) one that
-- was stored then, as an audit wants it: a day and 14 hours away, since nobody knows their zone; none of a later day;
-- and no storage has two.
CREATE OR REPLACE FUNCTION has_its_date(of_month date, of_box text, of_serial bigint, of_part smallint,
    moment timestamptz) RETURNS boolean LANGUAGE sql STABLE AS $$
    SELECT NOT EXISTS (
        SELECT FROM (SELECT storage, left(shown, 10)::timestamp AS day, shown ~ 'T' AS has_time,
                            left(shown, 16)::timestamp - (moment AT TIME ZONE 'UTC') AS later
                     FROM points WHERE (month, box, serial) = (of_month, of_box, of_serial)
                       AND part = coalesce(of_part, part) AND vib IN ('6C', '6D') AND shown ~ '^\d{4}-\d\d-\d\d') k
        GROUP BY storage
        HAVING CASE WHEN storage = 0
                    THEN bool_or(has_time AND (later < CASE WHEN of_part IS NULL THEN interval '-10 hours'
                                                            ELSE interval '-38 hours' END
                                               OR later > interval '38 hours' AND of_part IS NOT NULL))
                    ELSE count(DISTINCT day) > 1 OR max(day) > moment AT TIME ZONE 'UTC' + interval '14 hours'
                        AND of_part IS NOT NULL END)
$$;

-- The value of a fitting for a day: the one that the meter stored at its end, else the last reading of the day. One
-- that a person struck is passed over, in each telegram that has it, and so is one with an error, or with other dates:
-- the next best one counts.
CREATE OR REPLACE FUNCTION value_for(of_fitting bigint, of_day date, begins timestamptz, ends timestamptz)
RETURNS TABLE (at timestamptz, value numeric, unit text, source text, month date, box text, serial bigint,
    part smallint) LANGUAGE sql STABLE AS $$
    SELECT v.at, v.value, v.unit, v.source, v.month, v.box, v.serial, v.part FROM (
        (SELECT 1 AS rank, ends AS at, p.value, p.unit, 'stored' AS source, p.month, p.box, p.serial, p.part, p.place,
                w.identity, w.vib
         FROM heard w JOIN due_readings d ON (d.box, d.identity, d.due) = (w.box, w.identity, of_day)
         JOIN readings r ON (r.month, r.box, r.serial) = (d.month, d.box, d.serial)
         JOIN points p ON (p.month, p.box, p.serial, p.due) = (d.month, d.box, d.serial, d.due)
         WHERE w.fitting = of_fitting AND w.boxed && tstzrange(ends, NULL) AND ends > lower(w.fitted)
           AND ends <= coalesce(upper(w.fitted), 'infinity') AND counts(p, w.vib, w.quantity)
           AND NOT has_error(r.bodies[p.part]) AND has_its_date(r.month, r.box, r.serial, NULL, ends))
        UNION ALL
        (SELECT 2, r.at, p.value, p.unit, 'read', p.month, p.box, p.serial, p.part, p.place, w.identity, w.vib
         FROM heard w JOIN readings r ON (r.box, r.identity) = (w.box, w.identity) AND w.during @> r.at
         JOIN points p ON (p.month, p.box, p.serial) = (r.month, r.box, r.serial)
         WHERE w.fitting = of_fitting AND r.month >= date_trunc('month', of_day - 1) AND r.at >= begins AND r.at < ends
           AND p.storage = 0 AND counts(p, w.vib, w.quantity) AND NOT has_error(r.bodies[p.part])
           AND has_its_date(r.month, r.box, r.serial, p.part, r.at))) v
    WHERE smallest(v.value, v.unit) IS NOT NULL AND NOT has_two_energies(v.identity, v.vib, v.month, v.box, v.serial)
      AND NOT EXISTS (SELECT FROM day_values k WHERE k.fitting = of_fitting AND k.day = of_day
                      AND k.struck_at IS NOT NULL AND (k.source, k.value, k.unit) = (v.source, v.value, v.unit))
    ORDER BY v.rank, v.at DESC, v.month DESC, v.box DESC, v.serial DESC, v.part, v.place LIMIT 1
$$;

-- Why a fitting has no value for a day; NULL where nothing was read, or all was struck.
CREATE OR REPLACE FUNCTION why_no_value(of_fitting bigint, begins timestamptz, ends timestamptz) RETURNS text
    LANGUAGE sql STABLE AS $$
    SELECT CASE WHEN count(*) = 0 THEN NULL
                WHEN bool_and(has_error(r.bodies[cardinality(r.bodies)])) THEN 'error'
                WHEN bool_or(has_two_energies(w.identity, w.vib, r.month, r.box, r.serial)) THEN 'two energies'
                WHEN bool_or(p.value IS NOT NULL AND smallest(p.value, p.unit) IS NULL) THEN 'too large'
                WHEN count(p.value) = 0 THEN 'no record'
                WHEN NOT bool_or(has_its_date(r.month, r.box, r.serial, p.part, r.at)) THEN 'other date' END
    FROM heard w JOIN readings r ON (r.box, r.identity) = (w.box, w.identity) AND w.during @> r.at
    LEFT JOIN points p ON (p.month, p.box, p.serial) = (r.month, r.box, r.serial) AND p.storage = 0
      AND counts(p, w.vib, w.quantity)
    WHERE w.fitting = of_fitting AND r.month >= date_trunc('month', begins - interval '2 days')
      AND r.at >= begins AND r.at < ends
$$;

-- Strikes a value: it stays in the table, and counts no longer.
CREATE OR REPLACE FUNCTION strike(of_value bigint, why text) RETURNS void LANGUAGE sql AS $$
    WITH struck AS (
        UPDATE day_values SET struck_at = now(), struck_by = acting(), struck_why = why
        WHERE id = of_value AND struck_at IS NULL RETURNING fitting, day)
    SELECT refuse(k.fitting IS NULL, format('no value %s that counts', of_value)), queue_day(k.fitting, k.day)
    FROM (VALUES (1)) AS one LEFT JOIN struck k ON true
$$;

-- Puts a value by hand at the end of a day, and strikes the one of that day. Returns its id.
CREATE OR REPLACE FUNCTION put_value(of_fitting bigint, of_day date, of_value numeric, of_unit text, why text)
RETURNS bigint LANGUAGE plpgsql AS $$
DECLARE
    made bigint;
BEGIN
    PERFORM refuse(quantity_of(of_unit) IS DISTINCT FROM (SELECT quantity FROM counted WHERE fitting = of_fitting),
        format('%s is no unit of what meter %s counts', of_unit, of_fitting), 'check_violation');
    UPDATE day_values SET struck_at = now(), struck_by = acting(), struck_why = why
    WHERE fitting = of_fitting AND day = of_day AND struck_at IS NULL;
    INSERT INTO day_values (fitting, day, at, value, unit, source)
    SELECT f.fitting, of_day, least(day_begins(of_day + 1, f.zone), upper(f.during)), of_value, of_unit, 'by hand'
    FROM counted f WHERE f.fitting = of_fitting
      AND f.during && tstzrange(day_begins(of_day, f.zone), day_begins(of_day + 1, f.zone)) RETURNING id INTO made;
    PERFORM refuse(made IS NULL, format('no meter %s on %s', of_fitting, of_day)), queue_day(of_fitting, of_day);
    RETURN made;
END $$;

CREATE OR REPLACE FUNCTION put_estimate(of_fitting bigint, of_day date, moment timestamptz, of_value numeric,
    of_unit text, of_how text) RETURNS void LANGUAGE sql AS $$
    INSERT INTO day_values (fitting, day, at, value, unit, source, how)
        VALUES (of_fitting, of_day, moment, of_value, of_unit, 'estimated', of_how)
$$;

-- ---- Days are closed

CREATE OR REPLACE FUNCTION queue_day(of_fitting bigint, of_day date) RETURNS void LANGUAGE sql AS $$
    INSERT INTO to_close AS q VALUES (of_fitting, of_day, true)
    ON CONFLICT (fitting, day) DO UPDATE SET is_changed = true
$$;

-- The days of a fitting in a time of which something was read. (In plpgsql its plan is made once a session: most of its
-- time was planning.)
CREATE OR REPLACE FUNCTION queue_days(of_fitting bigint, range tstzrange) RETURNS void LANGUAGE plpgsql AS $$
BEGIN
    PERFORM queue_day(of_fitting, k.day) FROM (
        SELECT (r.at AT TIME ZONE w.zone)::date AS day
        FROM heard w JOIN readings r ON (r.box, r.identity) = (w.box, w.identity) AND w.boxed @> r.at
        WHERE w.fitting = of_fitting AND r.at <@ range
          AND r.month >= date_trunc('month', coalesce(lower(range), '2000-01-01') - interval '1 day')
        UNION
        SELECT d.due FROM heard w JOIN due_readings d ON (d.box, d.identity) = (w.box, w.identity)
        WHERE w.fitting = of_fitting AND day_begins(d.due + 1, w.zone) <@ range
        UNION
        SELECT (m.at AT TIME ZONE f.zone)::date
        FROM counted f CROSS JOIN LATERAL (VALUES (lower(range)), (upper(range))) AS m (at)
        WHERE f.fitting = of_fitting AND m.at IS NOT NULL ORDER BY 1) k;
END $$;

-- All that these houses have had since a day, by hand.
CREATE OR REPLACE FUNCTION queue_since(first date, of_houses text[]) RETURNS void LANGUAGE sql AS $$
    SELECT queue_days(f.fitting, f.during * k.later)
    FROM counted f CROSS JOIN LATERAL (SELECT tstzrange(day_begins(first, f.zone), NULL) AS later) k
    WHERE f.house = ANY (of_houses) AND f.during && k.later ORDER BY f.fitting
$$;

-- The due dates of a reading, but those whose value is there already.
CREATE OR REPLACE FUNCTION days_follow_due_readings() RETURNS trigger LANGUAGE plpgsql AS $$
BEGIN
    INSERT INTO to_close AS q SELECT DISTINCT w.fitting, a.due, false
    FROM added a JOIN heard w ON (w.box, w.identity) = (a.box, a.identity)
      AND w.fitted && tstzrange(day_begins(a.due, w.zone), day_begins(a.due + 1, w.zone), '[]')
    WHERE NOT EXISTS (
        SELECT FROM day_values k JOIN points p ON (p.month, p.box, p.serial, p.due) = (a.month, a.box, a.serial, a.due)
          AND (p.value, p.unit) = (k.value, k.unit)
        WHERE (k.fitting, k.day, k.source) = (w.fitting, a.due, 'stored') AND k.struck_at IS NULL)
    ORDER BY 1, 2 ON CONFLICT (fitting, day) DO UPDATE SET is_changed = q.is_changed;
    RETURN NULL;
END $$;
CREATE OR REPLACE TRIGGER days_follow_due_readings AFTER INSERT ON due_readings REFERENCING NEW TABLE AS added
    FOR EACH STATEMENT EXECUTE FUNCTION days_follow_due_readings();
CREATE OR REPLACE TRIGGER days_follow_later_due_readings AFTER UPDATE ON due_readings REFERENCING NEW TABLE AS added
    FOR EACH STATEMENT EXECUTE FUNCTION days_follow_due_readings();

-- The days between an end of a fitting's time and what it was before; all where it is new, or another record counts.
CREATE OR REPLACE FUNCTION days_follow_fittings() RETURNS trigger LANGUAGE plpgsql AS $$
DECLARE
    one timestamptz := coalesce(upper(OLD.during), 'infinity');
    other timestamptz := coalesce(upper(NEW.during), 'infinity');
BEGIN
    IF TG_OP = 'INSERT' OR OLD.vib IS DISTINCT FROM NEW.vib THEN
        PERFORM queue_days(NEW.id, NEW.during);
    ELSE
        PERFORM queue_days(NEW.id, tstzrange(least(lower(OLD.during), lower(NEW.during)),
            greatest(lower(OLD.during), lower(NEW.during)), '[]'));
        PERFORM queue_days(NEW.id, tstzrange(least(one, other), nullif(greatest(one, other), 'infinity'), '[]'))
        WHERE least(one, other) < 'infinity';
    END IF;
    RETURN NULL;
END $$;
CREATE OR REPLACE TRIGGER days_follow_fittings AFTER INSERT OR UPDATE OF during, vib, unit, first_value, last_value,
    first_is_estimated, last_is_estimated ON fittings FOR EACH ROW EXECUTE FUNCTION days_follow_fittings();

-- Who uses a flat decides the parts of months.
CREATE OR REPLACE FUNCTION months_follow_tenancies() RETURNS trigger LANGUAGE plpgsql AS $$
BEGIN
    INSERT INTO to_compute AS t SELECT DISTINCT p.house, u.month
    FROM (VALUES (OLD.house, OLD.days), (NEW.house, NEW.days)) AS k (house, days) JOIN places p ON p.house = k.house
    JOIN month_use u ON u.place = p.id AND k.days && daterange(u.month, (u.month + interval '1 month')::date)
    ORDER BY 1, 2 ON CONFLICT (house, month) DO UPDATE SET month = excluded.month;
    RETURN NULL;
END $$;
CREATE OR REPLACE TRIGGER months_follow_tenancies AFTER INSERT OR UPDATE OF house, flat, days ON tenancies
    FOR EACH ROW EXECUTE FUNCTION months_follow_tenancies();

-- The days of the queue, of these houses: their values, or why there is none, and the water of their nights. The months
-- that they decide are to be computed. Returns how many days there were, and how many values this call wrote.
CREATE OR REPLACE FUNCTION close_houses(of_houses text[]) RETURNS TABLE (days bigint, written bigint)
    LANGUAGE plpgsql AS $$
DECLARE
    queued to_close[];
    changed to_close[];
BEGIN
    PERFORM FROM to_close t JOIN fittings f ON f.id = t.fitting WHERE f.house = ANY (of_houses)
    ORDER BY t.fitting, t.day FOR UPDATE OF t;
    WITH gone AS (
        DELETE FROM to_close t USING fittings f WHERE f.id = t.fitting AND f.house = ANY (of_houses) RETURNING t)
    SELECT array_agg(t), count(*) INTO queued, days FROM gone;
    WITH made AS (
        INSERT INTO day_values AS k (fitting, day, at, value, unit, source, month, box, serial, part)
        SELECT q.fitting, q.day, v.* FROM unnest(queued) q JOIN counted f ON f.fitting = q.fitting
        CROSS JOIN LATERAL value_for(q.fitting, q.day, day_begins(q.day, f.zone), day_begins(q.day + 1, f.zone)) v
        ON CONFLICT (fitting, day) WHERE struck_at IS NULL DO UPDATE
        SET at = excluded.at, value = excluded.value, unit = excluded.unit, source = excluded.source, how = NULL,
            box = excluded.box, month = excluded.month, serial = excluded.serial, part = excluded.part, made_at = now()
        WHERE k.source <> 'by hand' AND (k.at, k.value, k.unit, k.source)
              IS DISTINCT FROM (excluded.at, excluded.value, excluded.unit, excluded.source)
        RETURNING fitting, day)
    SELECT array_agg((fitting, day, true)::to_close), count(*) INTO changed, written FROM made;
    changed := coalesce(changed, '{}') || ARRAY(SELECT q FROM unnest(queued) q WHERE q.is_changed);
    PERFORM note_gaps(queued);
    PERFORM note_nights(queued);
    PERFORM note_late(changed);
    PERFORM note_sizes(changed);
    PERFORM note_restarts(changed);
    PERFORM note_months(changed);
    RETURN NEXT;
END $$;

CREATE OR REPLACE FUNCTION note_gaps(queued to_close[]) RETURNS void LANGUAGE sql AS $$
    DELETE FROM gaps g USING unnest(queued) q WHERE (g.fitting, g.day) = (q.fitting, q.day);
    INSERT INTO gaps SELECT q.fitting, q.day, w.why FROM unnest(queued) q JOIN counted f ON f.fitting = q.fitting
    CROSS JOIN LATERAL why_no_value(q.fitting, day_begins(q.day, f.zone), day_begins(q.day + 1, f.zone)) AS w (why)
    WHERE w.why IS NOT NULL
      AND NOT EXISTS (SELECT FROM day_values k WHERE k.fitting = q.fitting AND k.day = q.day AND k.struck_at IS NULL)
$$;

CREATE OR REPLACE FUNCTION note_nights(queued to_close[]) RETURNS void LANGUAGE sql AS $$
    INSERT INTO night_use AS n SELECT q.fitting, q.day, max(smallest(k.value, k.unit)) - min(smallest(k.value, k.unit))
    FROM unnest(queued) q JOIN heard w ON w.fitting = q.fitting
    JOIN readings r ON (r.box, r.identity) = (w.box, w.identity) AND w.during @> r.at
      AND r.month >= date_trunc('month', q.day - 1) AND r.at >= day_begins(q.day, w.zone)
      AND r.at < day_begins(q.day, w.zone) + interval '5 hours'
    JOIN points k ON (k.month, k.box, k.serial) = (r.month, r.box, r.serial)
    WHERE w.quantity = 'volume' AND k.storage = 0 AND counts(k, w.vib, w.quantity)
      AND smallest(k.value, k.unit) IS NOT NULL AND NOT has_error(r.bodies[k.part])
    GROUP BY q.fitting, q.day HAVING count(DISTINCT (r.box, r.serial)) > 1
    ON CONFLICT (fitting, night) DO UPDATE SET amount = excluded.amount WHERE n.amount <> excluded.amount
$$;

CREATE OR REPLACE FUNCTION note_late(changed to_close[]) RETURNS void LANGUAGE sql AS $$
    UPDATE boxes b SET late = CASE WHEN k.late > 0
        THEN jsonb_build_object('values', k.late, 'meters', k.meters, 'first', k.first) END
    FROM (SELECT d.box, count(*) FILTER (WHERE d.is_late) AS late, min(d.day) FILTER (WHERE d.is_late) AS first,
                 count(DISTINCT d.fitting) FILTER (WHERE d.is_late) AS meters
          FROM (SELECT v.box, v.fitting, v.day, v.made_at > day_begins(v.day + 4, f.zone) AS is_late
                FROM unnest(changed) q JOIN counted f ON f.fitting = q.fitting
                JOIN day_values v ON (v.fitting, v.day, v.made_at) = (q.fitting, q.day, now()) AND v.struck_at IS NULL
                WHERE v.box IS NOT NULL) d
          GROUP BY d.box) k
    WHERE b.name = k.box AND (k.late > 0 OR b.late IS NOT NULL)
$$;

-- A value decides what lies between the second one before it and the second one after it: amounts, and marks.
CREATE OR REPLACE FUNCTION note_months(changed to_close[]) RETURNS void LANGUAGE sql AS $$
    INSERT INTO to_compute AS t SELECT DISTINCT f.house, m.month::date FROM unnest(changed) q
    JOIN fittings f ON f.id = q.fitting
    CROSS JOIN LATERAL (SELECT min(day) AS day FROM (
        SELECT d.day FROM fittings o JOIN day_values d ON d.fitting = o.id WHERE o.place = f.place AND d.day < q.day
        AND d.struck_at IS NULL AND d.source <> 'estimated' ORDER BY d.day DESC LIMIT 2) k) one
    CROSS JOIN LATERAL (SELECT max(day) AS day FROM (
        SELECT d.day FROM fittings o JOIN day_values d ON d.fitting = o.id WHERE o.place = f.place AND d.day > q.day
        AND d.struck_at IS NULL AND d.source <> 'estimated' ORDER BY d.day LIMIT 2) k) other
    CROSS JOIN LATERAL generate_series(date_trunc('month', coalesce(one.day, q.day)::timestamp),
        date_trunc('month', coalesce(other.day, q.day)::timestamp), interval '1 month') AS m (month)
    ORDER BY 1, 2 ON CONFLICT (house, month) DO UPDATE SET month = excluded.month
$$;

-- Takes the statistics of the tables of which there are none, or that have ten times the pages that they had then: a
-- plan made for an empty table takes minutes over a full one. Returns their names.
CREATE OR REPLACE FUNCTION analyze_days() RETURNS SETOF text LANGUAGE plpgsql AS $$
DECLARE
    of_table regclass;
BEGIN
    FOR of_table IN SELECT c.oid FROM pg_class c
                    WHERE c.relkind = 'r' AND c.relnamespace = 'public'::regnamespace AND pg_relation_size(c.oid) > 0
                      AND pg_relation_size(c.oid) >= 10 * 8192 * c.relpages::bigint LOOP
        EXECUTE format('ANALYZE %s', of_table);
        RETURN NEXT of_table::text;
    END LOOP;
END $$;
