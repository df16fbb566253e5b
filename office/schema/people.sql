-- What people do: numbers go out, and stay. What is done on the manager's page, in a line of a CSV and by office/act is
-- a function each of the schema `desk`, with a reason, which writes the log. office/migrate lays it anew.

-- ---- Numbers that go out, and stay

-- A number that a person has seen may be in a bill.
CREATE OR REPLACE FUNCTION see_number(of_month date, of_place bigint, of_why text) RETURNS bigint LANGUAGE sql AS $$
    UPDATE bills SET is_to_check = true WHERE house = (SELECT house FROM places WHERE id = of_place)
      AND out_at IS NOT NULL AND days && daterange(of_month, (of_month + interval '1 month')::date);
    WITH made AS (
        INSERT INTO seen (month, place, part, amount, why) SELECT month, place, part, amount, of_why FROM month_now
        WHERE (month, place) = (of_month, of_place) AND (is_held OR grade = 'provisional') AND amount IS NOT NULL
        ON CONFLICT DO NOTHING RETURNING 1)
    SELECT count(*) FROM made
$$;

-- Whether a place has a provisional number in a month. It isn't released: the step after the month's end is to come, or
-- a person says why it needn't.
CREATE OR REPLACE FUNCTION waits_for_a_step(of_month date, of_place bigint) RETURNS boolean LANGUAGE sql STABLE AS $$
    SELECT EXISTS (SELECT FROM month_now u WHERE (u.month, u.place, u.grade) = (of_month, of_place, 'provisional')
      AND NOT EXISTS (
        SELECT FROM seen n WHERE (n.month, n.place, n.part, n.amount) = (u.month, u.place, u.part, u.amount)))
$$;

-- The houses whose sheets of a month are ready: not out, and each user of it has a number for each use.
CREATE OR REPLACE FUNCTION ready_houses(of_month date) RETURNS SETOF text LANGUAGE sql STABLE AS $$
    SELECT u.house FROM month_kwh u JOIN tenancies t ON t.id = u.tenancy AND t.wants <> 'nothing'
    WHERE u.month = of_month AND NOT EXISTS (
        SELECT FROM versions v WHERE (v.house, v.month, v.version) = (u.house, of_month, version_of(u.house, of_month))
          AND v.out_at IS NOT NULL)
    GROUP BY u.house
    HAVING NOT bool_or(u.grade IN ('missing', 'disturbed', 'unclear', 'held') OR waits_for_a_step(of_month, u.place))
    ORDER BY u.house
$$;

-- Which version of a month is the present one.
CREATE OR REPLACE FUNCTION version_of(of_house text, of_month date) RETURNS smallint LANGUAGE sql STABLE AS $$
    SELECT coalesce(max(version), 1::smallint) FROM versions WHERE (house, month) = (of_house, of_month)
$$;

CREATE OR REPLACE FUNCTION audit_of(of_house text, of_month date) RETURNS bigint LANGUAGE sql STABLE AS $$
    SELECT id FROM audits_now WHERE (house, month) = (of_house, of_month)
$$;

-- A month is out: with its sheets. Returns its version; NULL where it was out before.
CREATE OR REPLACE FUNCTION release_month(of_house text, of_month date) RETURNS smallint LANGUAGE sql AS $$
    SELECT refuse(EXISTS (SELECT FROM places p WHERE p.house = of_house AND waits_for_a_step(of_month, p.id)),
        format('month %s of %s waits for readings after its end', of_month, of_house), 'check_violation');
    INSERT INTO versions (house, month, version, why)
    VALUES (of_house, of_month, version_of(of_house, of_month), 'first') ON CONFLICT DO NOTHING;
    WITH made AS (
        UPDATE versions v SET out_at = now(), audit = audit_of(of_house, of_month)
        WHERE (house, month, version) = (of_house, of_month, version_of(of_house, of_month)) AND out_at IS NULL
        RETURNING version),
    frozen AS (
        UPDATE month_use u SET out_at = now() FROM places p, made v
        WHERE p.id = u.place AND p.house = of_house AND (u.month, u.version) = (of_month, v.version))
    SELECT version FROM made
$$;

-- A person opens another version of a month that is out.
CREATE OR REPLACE FUNCTION correct_month(of_house text, of_month date, of_why text) RETURNS smallint LANGUAGE sql AS $$
    SELECT refuse(NOT EXISTS (
        SELECT FROM versions WHERE (house, month, version) = (of_house, of_month, version_of(of_house, of_month))
        AND out_at IS NOT NULL), format('month %s of %s is not out', of_month, of_house));
    INSERT INTO to_compute VALUES (of_house, of_month) ON CONFLICT (house, month) DO UPDATE SET month = excluded.month;
    DELETE FROM changes WHERE (house, month) = (of_house, of_month);
    INSERT INTO versions (house, month, version, why)
    VALUES (of_house, of_month, version_of(of_house, of_month) + 1, of_why) RETURNING version
$$;

-- A person leaves a month that is out as it is.
CREATE OR REPLACE FUNCTION leave_month(of_house text, of_month date, of_why text) RETURNS void LANGUAGE sql AS $$
    WITH made AS (UPDATE changes SET left_why = of_why, left_by = acting()
                  WHERE (house, month) = (of_house, of_month) RETURNING house)
    SELECT refuse(NOT EXISTS (TABLE made), format('month %s of %s would be no other', of_month, of_house))
$$;

-- A bill is out. Returns its version; NULL where it was out before.
CREATE OR REPLACE FUNCTION release_bill(of_house text, of_days daterange) RETURNS smallint LANGUAGE sql AS $$
    INSERT INTO bills (house, days, version, why)
    SELECT of_house, of_days, 1, 'first' WHERE NOT EXISTS (SELECT FROM bills WHERE (house, days) = (of_house, of_days));
    UPDATE bills SET out_at = now(), audit = (SELECT id FROM audits_now a WHERE (a.house, a.days) = (of_house, of_days))
    WHERE (house, days) = (of_house, of_days) AND out_at IS NULL RETURNING version
$$;

-- A person opens another version of a bill that is out.
CREATE OR REPLACE FUNCTION correct_bill(of_house text, of_days daterange, of_why text) RETURNS smallint
    LANGUAGE sql AS $$
    SELECT refuse(NOT EXISTS (SELECT FROM bills_now WHERE (house, days) = (of_house, of_days) AND out_at IS NOT NULL),
        format('bill %s of %s is not out', of_days, of_house));
    UPDATE bills SET is_to_check = false, changed = NULL, left_why = NULL, left_by = NULL
    WHERE (house, days) = (of_house, of_days)
      AND version = (SELECT version FROM bills_now WHERE (house, days) = (of_house, of_days));
    INSERT INTO bills (house, days, version, why)
    SELECT house, days, version + 1, of_why FROM bills_now WHERE (house, days) = (of_house, of_days) RETURNING version
$$;

-- A person leaves a bill that is out as it is.
CREATE OR REPLACE FUNCTION leave_bill(of_house text, of_days daterange, of_why text) RETURNS void LANGUAGE sql AS $$
    WITH made AS (UPDATE bills SET left_why = of_why, left_by = acting()
                  WHERE (house, days) = (of_house, of_days) AND changed IS NOT NULL RETURNING house)
    SELECT refuse(NOT EXISTS (TABLE made), format('bill %s of %s would be no other', of_days, of_house))
$$;

-- What is out stays: of a row only these columns may be changed (the trigger's first word), and those may come to have
-- nothing (its second): who used it and the readings behind it (office/forget, office/retain).
CREATE OR REPLACE FUNCTION is_frozen() RETURNS trigger LANGUAGE plpgsql AS $$
DECLARE
    emptied constant text[] := TG_ARGV[1];
    free constant text[] := TG_ARGV[0]::text[] || emptied;
    was constant jsonb := to_jsonb(OLD);
BEGIN
    IF TG_OP = 'UPDATE' AND to_jsonb(NEW) - free = was - free AND NOT EXISTS (
        SELECT FROM unnest(emptied) k WHERE to_jsonb(NEW) -> k NOT IN ('null', '[]', was -> k)) THEN
        RETURN NEW;
    END IF;
    RAISE EXCEPTION '% % is out: office/correct makes another version', TG_TABLE_NAME, concat_ws(' ', was ->> 'house',
        was ->> 'place', was ->> 'month', was ->> 'days', was ->> 'id') USING ERRCODE = 'restrict_violation';
END $$;
CREATE OR REPLACE TRIGGER out_is_frozen BEFORE UPDATE OR DELETE ON month_use
    FOR EACH ROW WHEN (OLD.out_at IS NOT NULL) EXECUTE FUNCTION is_frozen('{}', '{tenancy,basis}');
CREATE OR REPLACE TRIGGER published_is_frozen BEFORE UPDATE OR DELETE ON published
    FOR EACH ROW EXECUTE FUNCTION is_frozen('{}', '{tenancy}');
CREATE OR REPLACE TRIGGER bill_is_frozen BEFORE UPDATE OR DELETE ON bills FOR EACH ROW WHEN (OLD.out_at IS NOT NULL)
    EXECUTE FUNCTION is_frozen('{is_to_check,changed,left_why,left_by}', '{}');
-- An audit's file goes after its time, and an open month's audit is void once it is computed anew.
CREATE OR REPLACE TRIGGER audit_is_frozen BEFORE UPDATE OR DELETE ON audits
    FOR EACH ROW EXECUTE FUNCTION is_frozen('{void_at}', '{file}');

-- Values that went out are frozen with their month.
CREATE OR REPLACE FUNCTION values_are_frozen() RETURNS trigger LANGUAGE plpgsql AS $$
BEGIN
    PERFORM refuse(EXISTS (SELECT FROM month_use WHERE (month, place, version) = (OLD.month, OLD.place, OLD.version)
      AND out_at IS NOT NULL), format('month %s of place %s is out', OLD.month, OLD.place), 'restrict_violation');
    RETURN NEW;
END $$;
CREATE OR REPLACE TRIGGER values_are_frozen BEFORE UPDATE ON frozen_values
    FOR EACH ROW EXECUTE FUNCTION values_are_frozen();

CREATE OR REPLACE FUNCTION audit_has_no_file() RETURNS trigger LANGUAGE plpgsql AS $$
BEGIN
    RAISE EXCEPTION 'an audit of % without its file', NEW.house USING ERRCODE = 'not_null_violation';
END $$;
CREATE OR REPLACE TRIGGER has_its_file BEFORE INSERT ON audits
    FOR EACH ROW WHEN (NEW.file IS NULL) EXECUTE FUNCTION audit_has_no_file();

-- ---- What functions of the page have in common

CREATE OR REPLACE FUNCTION write_log(of_what text, of_house text, of_subject text, was jsonb, is_now jsonb,
    of_why text) RETURNS void LANGUAGE plpgsql AS $$
DECLARE
    of_item bigint := nullif(current_setting('office.item', true), '')::bigint;
BEGIN
    INSERT INTO log (what, house, subject, before, after, why, item)
    VALUES (of_what, of_house, of_subject, was, is_now, of_why, of_item);
    UPDATE alarms SET done_at = now(), done_by = acting()
    WHERE id = of_item AND ended_at IS NULL AND of_what NOT IN ('take_over', 'hand_back');
END $$;

CREATE OR REPLACE FUNCTION zone_of(of_house text) RETURNS text LANGUAGE sql STABLE AS $$
    SELECT refuse(NOT EXISTS (SELECT FROM houses WHERE house = of_house), format('no house %s', of_house));
    SELECT zone FROM houses WHERE house = of_house
$$;

-- Gives both meters of an exchange their moment, and the values that they stood at.
CREATE OR REPLACE FUNCTION set_exchange(e exchanges) RETURNS void LANGUAGE plpgsql AS $$
DECLARE
    one fittings;
    other fittings;
BEGIN
    SELECT n.* INTO other FROM fittings n WHERE (n.house, n.identity) = (e.house, e.fitted)
    ORDER BY lower(n.during) LIMIT 1;
    SELECT o.* INTO one FROM fittings o WHERE (o.house, o.identity, o.place) = (e.house, e.removed, other.place)
    ORDER BY lower(o.during) DESC LIMIT 1;
    PERFORM refuse(one.id IS NULL OR e.at <= lower(one.during) OR e.at >= coalesce(upper(other.during), now()),
        format('%s is not the meter before %s at that time', e.removed, e.fitted), 'check_violation');
    UPDATE fittings SET during = tstzrange(greatest(e.at, lower(during)), upper(during)) WHERE id = other.id;
    UPDATE fittings SET during = tstzrange(lower(during), e.at), unit = e.unit, last_value = e.last WHERE id = one.id;
    UPDATE fittings SET during = tstzrange(e.at, upper(during)), unit = e.unit, first_value = e.first
    WHERE id = other.id;
END $$;

CREATE OR REPLACE FUNCTION fittings_follow_exchanges() RETURNS trigger LANGUAGE plpgsql AS $$
BEGIN
    PERFORM set_exchange(e) FROM exchanges e WHERE (e.house, e.fitted) = (NEW.house, NEW.identity);
    DELETE FROM exchanges e WHERE (e.house, e.fitted) = (NEW.house, NEW.identity);
    RETURN NULL;
END $$;
CREATE OR REPLACE TRIGGER fittings_follow_exchanges AFTER INSERT ON fittings
    FOR EACH ROW EXECUTE FUNCTION fittings_follow_exchanges();

-- What stands above the items of the page. What waits for a step after the month's end is counted among what waits.
CREATE OR REPLACE FUNCTION note_morning(moment timestamptz) RETURNS void LANGUAGE sql AS $$
    DELETE FROM mornings WHERE at > moment - interval '1 minute' OR at < moment - interval '400 days';
    INSERT INTO mornings (at, houses, meters, read, month, ready, waiting, released, on_paper)
    SELECT moment, (SELECT count(*) FROM houses), m.meters, m.meters - m.silent, k.month, s.*
    FROM (SELECT date_trunc('month', moment::timestamp - interval '1 month')::date AS month) k,
         (SELECT (SELECT count(*) FROM meters m JOIN boxes b ON b.name = m.box WHERE b.active) AS meters,
                 (SELECT count(*) FROM overdue_at(moment)) AS silent) m,
         LATERAL (
             SELECT count(*) FILTER (WHERE NOT waits AND NOT is_out), count(*) FILTER (WHERE waits AND NOT is_out),
                    count(*) FILTER (WHERE is_out), count(*) FILTER (WHERE NOT waits AND NOT is_out AND wants = 'paper')
             FROM (SELECT t.wants, EXISTS (SELECT FROM versions v WHERE (v.house, v.month) = (t.house, k.month)
                                           AND v.out_at IS NOT NULL) AS is_out,
                          bool_or(bool_or(u.grade IN ('missing', 'disturbed', 'unclear', 'held')
                              OR waits_for_a_step(k.month, u.place))) OVER (PARTITION BY t.house) AS waits
                   FROM tenancies t JOIN month_kwh u ON u.tenancy = t.id AND u.month = k.month
                   WHERE t.wants <> 'nothing' GROUP BY t.id) of_each) s
$$;

-- Asks a program of the office; the same thing once at a time.
CREATE OR REPLACE FUNCTION ask(of_what text, of_words text) RETURNS void LANGUAGE sql AS $$
    INSERT INTO jobs (what, words) VALUES (of_what, of_words)
    ON CONFLICT (what, words) WHERE ended_at IS NULL DO NOTHING
$$;

CREATE OR REPLACE FUNCTION ask_to_send(of_month date) RETURNS void LANGUAGE sql AS $$
    SELECT ask('send', to_char(of_month, 'YYYY-MM'))
$$;

CREATE OR REPLACE FUNCTION desk.use_form(of_token text) RETURNS void LANGUAGE sql AS $$
    DELETE FROM forms WHERE used_at < now() - interval '2 days';
    INSERT INTO forms (token) VALUES (of_token)
$$;

-- ---- Values and meters

CREATE OR REPLACE FUNCTION desk.strike(value bigint, why text) RETURNS void LANGUAGE sql AS $$
    SELECT public.strike(value, why);
    SELECT write_log('strike', f.house, f.identity, jsonb_build_object('day', d.day, 'value', d.value, 'unit', d.unit,
        'source', d.source), NULL, why) FROM day_values d JOIN fittings f ON f.id = d.fitting WHERE d.id = strike.value
$$;

CREATE OR REPLACE FUNCTION desk.put_value(house text, meter text, day date, value numeric, unit text, why text)
    RETURNS void LANGUAGE plpgsql AS $$
#variable_conflict use_variable
DECLARE
    of_day tstzrange := tstzrange(day_begins(day, zone_of(house)), day_begins(day + 1, zone_of(house)));
    of_fitting bigint := (SELECT f.fitting FROM counted f WHERE (f.house, f.identity, f.quantity)
        = (house, meter, quantity_of(unit)) AND f.during && of_day ORDER BY lower(f.during) DESC LIMIT 1);
    was jsonb := (SELECT jsonb_build_object('value', d.value, 'unit', d.unit, 'source', d.source) FROM day_values d
                  WHERE (d.fitting, d.day) = (of_fitting, day) AND d.struck_at IS NULL);
BEGIN
    PERFORM refuse(lower(of_day) > now(), format('%s is yet to come', day), 'check_violation'),
        refuse(of_fitting IS NULL, format('no meter %s that counts %s was there on %s', meter, unit, day)),
        public.put_value(of_fitting, day, value, unit, why),
        write_log('put_value', house, meter, was, jsonb_build_object('day', day, 'value', value, 'unit', unit), why);
END $$;

CREATE OR REPLACE FUNCTION desk.see_number(place bigint, month date, why text) RETURNS void LANGUAGE sql AS $$
    SELECT refuse(public.see_number(month, place, why) = 0, 'no number is held there');
    SELECT write_log('see_number', p.house, concat_ws(' ', p.flat, p.use, p.number, to_char(month, 'YYYY-MM')), NULL,
        NULL, why) FROM places p WHERE p.id = place
$$;

CREATE OR REPLACE FUNCTION desk.declare_counter(house text, meter text, digits integer, why text) RETURNS void
    LANGUAGE sql AS $$
    SELECT public.declare_counter(house, meter, digits),
        write_log('declare_counter', house, meter, NULL, jsonb_build_object('digits', digits), why)
$$;

-- at: in the house's time zone.
CREATE OR REPLACE FUNCTION desk.restart(house text, meter text, at timestamp, last numeric, first numeric, unit text,
    why text) RETURNS void LANGUAGE sql AS $$
    SELECT public.restart(house, meter, restart.at AT TIME ZONE zone_of(house), last, first, unit, why),
        write_log('restart', house, meter, NULL, jsonb_build_object(
            'at', restart.at, 'last', last, 'first', first, 'unit', unit), why)
$$;

-- Where the new meter isn't in the register yet, the box gets the order (SWAP), and the values wait for its answer.
CREATE OR REPLACE FUNCTION desk.exchange(house text, old text, new text, at timestamp, last numeric, first numeric,
    unit text, why text) RETURNS void LANGUAGE plpgsql AS $$
DECLARE
    one exchanges := (house, old, new, exchange.at AT TIME ZONE zone_of(house), last, first, unit);
BEGIN
    PERFORM refuse(one.at > now(), format('%s is yet to come', exchange.at), 'check_violation');
    IF EXISTS (SELECT FROM fittings f WHERE (f.house, f.identity) = (one.house, one.fitted)) THEN
        PERFORM set_exchange(one);
    ELSE
        INSERT INTO orders (box, key, line) SELECT m.box, 'exchange ' || one.removed || ' ' || one.fitted,
            concat_ws(' ', 'SWAP', one.removed, one.fitted, m.address)
        FROM meters m JOIN boxes b ON b.name = m.box WHERE b.house = one.house AND b.active AND m.identity = one.removed
        ON CONFLICT (box, key) DO NOTHING;
        PERFORM refuse(NOT FOUND, format('no box of %s has %s in its register', one.house, one.removed));
        INSERT INTO exchanges SELECT one.*;
    END IF;
    PERFORM write_log('exchange', one.house, one.removed, NULL, to_jsonb(one) - '{house,removed}'::text[], why);
END $$;

-- use: '-' for none.
CREATE OR REPLACE FUNCTION desk.decide_use(house text, meter text, use text, vib text, why text) RETURNS void
    LANGUAGE sql AS $$
    SELECT zone_of(house), public.decide_use(house, meter, nullif(use, '-'), vib),
        write_log('decide_use', house, meter, NULL, jsonb_build_object('use', use, 'vib', vib), why)
$$;

-- A meter of a flat: the house's box gets the order to read it (FIT), or to count it to another flat (MOVE).
CREATE OR REPLACE FUNCTION desk.meter(house text, meter text, line integer, address text, flat text, why text)
    RETURNS void LANGUAGE plpgsql AS $$
#variable_conflict use_variable
DECLARE
    one record;
    of_line text;
BEGIN
    PERFORM zone_of(house), refuse(meter !~ '^[0-9A-F]{8}\.[A-Z]{3}\.[0-9A-F]{2}\.[0-9A-F]{2}$',
        format('%s is no meter, as 12345678.PAD.01.07', meter), 'check_violation');
    SELECT coalesce(min(m.box), CASE WHEN count(*) = 1 THEN min(b.name) END) AS box, min(m.flat) AS flat INTO one
    FROM boxes b LEFT JOIN meters m ON (m.box, m.identity) = (b.name, meter) WHERE b.house = house AND b.active;
    PERFORM refuse(one.box IS NULL, format('the house %s has no box, or several: office/order names it', house));
    of_line := CASE WHEN one.flat IS NULL THEN concat_ws(' ', 'FIT', meter, line, address, flat)
                    WHEN one.flat <> flat THEN concat_ws(' ', 'MOVE', meter, flat) END;
    INSERT INTO orders (box, key, line) SELECT one.box, of_line, of_line WHERE of_line IS NOT NULL
    ON CONFLICT ON CONSTRAINT orders_box_key_key DO NOTHING;
    PERFORM write_log('meter', house, meter, to_jsonb(one.flat),
        jsonb_build_object('line', line, 'address', address, 'flat', flat), why);
END $$;

-- ---- Houses, flats, users

CREATE OR REPLACE FUNCTION desk.house(house text, address text, postcode text, zone text, category text, contact text,
    advice text, complaints text, why text) RETURNS void LANGUAGE sql AS $$
    WITH made AS (
        INSERT INTO houses AS h (house, address, postcode, zone, category, contact, advice, complaints)
        VALUES (house, coalesce(address, ''), postcode, coalesce(zone, 'Europe/Berlin'), coalesce(category, 'flat'),
            coalesce(contact, ''), coalesce(advice, ''), coalesce(complaints, ''))
        ON CONFLICT ON CONSTRAINT houses_pkey DO UPDATE SET address = excluded.address, postcode = excluded.postcode,
            zone = excluded.zone, category = excluded.category, contact = excluded.contact, advice = excluded.advice,
            complaints = excluded.complaints RETURNING to_jsonb(h) AS is_now)
    SELECT write_log('house', house, house, (SELECT to_jsonb(w) FROM houses w WHERE w.house = house.house), is_now, why)
    FROM made
$$;

CREATE OR REPLACE FUNCTION desk.flat(house text, flat text, area numeric, why text) RETURNS void LANGUAGE sql AS $$
    SELECT zone_of(house);
    WITH made AS (
        INSERT INTO flats (house, flat, area_m2) VALUES (house, flat, area)
        ON CONFLICT ON CONSTRAINT flats_pkey DO UPDATE SET area_m2 = excluded.area_m2 RETURNING area_m2)
    SELECT write_log('flat', house, flat.flat, (SELECT to_jsonb(f.area_m2) FROM flats f
        WHERE (f.house, f.flat) = (flat.house, flat.flat)), to_jsonb(area), why) FROM made
$$;

-- Who uses a flat from a day on, and to its last day, if that is known. Who used it before goes the day before. The
-- same first day again changes what is known of the user.
CREATE OR REPLACE FUNCTION desk.tenant(house text, flat text, since date, until date, person text, language text,
    wants text, mail text, why text) RETURNS void LANGUAGE plpgsql AS $$
#variable_conflict use_variable
DECLARE
    of_days daterange := daterange(since, until + 1);
    was jsonb := (SELECT to_jsonb(t) - '{token,id}'::text[] FROM tenancies t
                  WHERE (t.house, t.flat) = (house, flat) AND t.days @> since);
BEGIN
    PERFORM refuse(NOT EXISTS (SELECT FROM flats f WHERE (f.house, f.flat) = (house, flat)),
        format('no flat %s in house %s', flat, house)), refuse(since IS NULL, 'no first day', 'not_null_violation');
    UPDATE tenancies t SET days = of_days, person = person, language = coalesce(language, t.language),
        wants = coalesce(wants, t.wants), mail = mail WHERE (t.house, t.flat, lower(t.days)) = (house, flat, since);
    IF NOT FOUND THEN
        UPDATE tenancies t SET days = daterange(lower(t.days), since)
        WHERE (t.house, t.flat) = (house, flat) AND t.days @> since;
        INSERT INTO tenancies (house, flat, days, person, language, wants, mail)
        VALUES (house, flat, of_days, person, coalesce(language, 'de'), coalesce(wants, 'paper'), mail);
    END IF;
    PERFORM write_log('tenant', house, flat, was, jsonb_build_object('days', of_days, 'person', person,
        'language', language, 'wants', wants, 'mail', mail), why);
END $$;

-- ---- Items, boxes, months, sheets

CREATE OR REPLACE FUNCTION desk.take_over(item bigint, why text) RETURNS void LANGUAGE sql AS $$
    WITH made AS (UPDATE alarms a SET known_by = acting(), note = why WHERE a.id = item AND a.ended_at IS NULL
                  RETURNING a.house, a.kind || ' ' || a.subject AS subject)
    SELECT refuse(m IS NULL, format('no open item %s', item)),
        write_log('take_over', m.house, m.subject, NULL, NULL, why) FROM (VALUES (1)) k LEFT JOIN made m ON true
$$;

CREATE OR REPLACE FUNCTION desk.hand_back(item bigint, why text) RETURNS void LANGUAGE sql AS $$
    WITH made AS (UPDATE alarms a SET known_by = NULL, note = NULL WHERE a.id = item AND a.known_by IS NOT NULL
                  RETURNING a.house, a.kind || ' ' || a.subject AS subject)
    SELECT refuse(m IS NULL, format('nobody looks after item %s', item)),
        write_log('hand_back', m.house, m.subject, NULL, NULL, why) FROM (VALUES (1)) k LEFT JOIN made m ON true
$$;

CREATE OR REPLACE FUNCTION desk.collect(box text, why text) RETURNS void LANGUAGE sql AS $$
    SELECT refuse(b IS NULL, format('no active box %s', box)), ask('collect', box),
        write_log('collect', b.house, box, NULL, NULL, why)
    FROM (VALUES (1)) k LEFT JOIN boxes b ON b.name = box AND b.active
$$;

CREATE OR REPLACE FUNCTION desk.release(month date, why text) RETURNS void LANGUAGE sql AS $$
    SELECT refuse(month IS NULL OR month <> date_trunc('month', month) OR month + interval '1 month' > now(),
        format('month %s is not over', month), 'check_violation'), ask('release', to_char(month, 'YYYY-MM')),
        write_log('release', NULL, to_char(month, 'YYYY-MM'), NULL, NULL, why)
$$;

-- The corrected month goes out once it is computed (office/work).
CREATE OR REPLACE FUNCTION desk.correct_month(house text, month date, why text) RETURNS void LANGUAGE sql AS $$
    SELECT write_log('correct_month', house, to_char(month, 'YYYY-MM'), (SELECT c.says FROM changes c
        WHERE (c.house, c.month) = (correct_month.house, correct_month.month)),
        to_jsonb(public.correct_month(house, month, why)), why),
        ask('release', concat_ws(' ', to_char(month, 'YYYY-MM'), house))
$$;

CREATE OR REPLACE FUNCTION desk.leave_month(house text, month date, why text) RETURNS void LANGUAGE sql AS $$
    SELECT public.leave_month(house, month, why),
        write_log('leave_month', house, to_char(month, 'YYYY-MM'), NULL, NULL, why)
$$;

-- What failed is sent again with the rest of its month.
CREATE OR REPLACE FUNCTION desk.send(month date, why text) RETURNS void LANGUAGE sql AS $$
    UPDATE sheets s SET failed_at = NULL, failed_why = NULL WHERE s.month = send.month AND s.failed_at IS NOT NULL;
    SELECT public.ask_to_send(month), write_log('send', NULL, to_char(month, 'YYYY-MM'), NULL, NULL, why)
$$;

-- A sheet that came back.
CREATE OR REPLACE FUNCTION desk.returned(house text, flat text, month date, why text) RETURNS void LANGUAGE sql AS $$
    WITH made AS (
        UPDATE sheets s SET sent_at = NULL, failed_at = now(), failed_why = why FROM delivery d
        WHERE s.id = d.id AND (d.house, d.flat, d.month) = (returned.house, returned.flat, returned.month)
          AND d.sent_at IS NOT NULL RETURNING s.id)
    SELECT refuse(NOT EXISTS (TABLE made), format('no sheet of flat %s was sent for that month', flat)),
        write_log('returned', house, concat_ws(' ', flat, to_char(month, 'YYYY-MM')), NULL, NULL, why)
$$;

-- Where the sheets of a flat's present user go.
CREATE OR REPLACE FUNCTION desk.address(house text, flat text, wants text, mail text, why text) RETURNS void
    LANGUAGE sql AS $$
    WITH one AS (
        SELECT t.id, jsonb_build_object('wants', t.wants, 'mail', t.mail) AS was FROM tenancies t
        WHERE (t.house, t.flat) = (address.house, address.flat) AND lower(t.days) <= current_date
        ORDER BY t.days DESC LIMIT 1),
    made AS (UPDATE tenancies t SET wants = coalesce(address.wants, t.wants), mail = address.mail
             FROM one WHERE t.id = one.id)
    SELECT refuse(one.id IS NULL, format('nobody uses flat %s', flat)),
        write_log('address', house, flat, one.was, jsonb_build_object('wants', wants, 'mail', mail), why)
    FROM (VALUES (1)) k LEFT JOIN one ON true
$$;
