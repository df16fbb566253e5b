-- Who may do what (roles.sql says who they are). office/migrate lays it anew: first nobody may do anything.

REVOKE ALL ON ALL TABLES IN SCHEMA public FROM reader, clerk, publisher, collector, closer, desk;
REVOKE ALL ON ALL FUNCTIONS IN SCHEMA public, desk FROM reader, clerk, publisher, collector, closer, desk;

-- A function that may write, but `refuse`, works with the rights of the database's owner, and nobody calls it without a
-- grant: it follows a change, does what the page asks, or is the only way to write what a role may not.
DO $$
DECLARE
    one regprocedure;
BEGIN
    FOR one IN SELECT p.oid FROM pg_proc p WHERE pronamespace IN ('public'::regnamespace, 'desk'::regnamespace)
               AND provolatile = 'v' AND proname <> 'refuse'
               AND NOT EXISTS (SELECT FROM pg_depend d WHERE d.objid = p.oid AND d.deptype = 'e') LOOP
        EXECUTE format('REVOKE EXECUTE ON FUNCTION %s FROM PUBLIC', one);
        EXECUTE format('ALTER FUNCTION %s SECURITY DEFINER SET search_path = public, pg_temp', one);
    END LOOP;
END $$;

-- ---- reader: looks; no names, no links
GRANT SELECT ON boxes, box_commands, box_houses, orders, readings, points, due_readings, meters, collections, uses,
    units, device_types, decided_uses, limits, models, houses, flats, places, fittings, restarts, exchanges, factors,
    prices, degree_days, day_values, gaps, night_use, to_close, to_compute, month_use, seen, versions, bills, refusals,
    changes, kept, jobs, alarms, mornings, due_values, meter_states, overdue, stale_boxes, month_now, month_kwh,
    month_parts, bills_now, audits_now, morning, counted, heard TO reader, clerk;
GRANT SELECT (id, house, month, days, version, sha256, program, program_sha256, says, void_at, made_at, made_by)
    ON audits TO reader;
GRANT SELECT (id, house, flat, days, language, wants, made_at, made_by) ON tenancies TO reader;
GRANT SELECT (tenancy, month, form, made_at, sent_at, out_at, failed_at, failed_why) ON sheets TO reader;
GRANT SELECT (id, at, who, what, house, subject, why, item) ON log TO reader;

-- ---- clerk: keeps houses, users and meters, puts orders, corrects values by functions. (Who may write boxes.command
-- may run programs as the user of the collector: no role.)
GRANT SELECT ON tenancies, frozen_values, audits, published, sheets, delivery, log TO clerk;
GRANT INSERT (box, key, line) ON orders TO clerk;
GRANT INSERT (house, address, postcode, zone, category, contact, fuel_mix, co2_g_per_kwh, primary_factor, shows_costs,
    advice, complaints), UPDATE (address, postcode, zone, category, contact, fuel_mix, co2_g_per_kwh, primary_factor,
    shows_costs, advice, complaints) ON houses TO clerk;
GRANT INSERT, UPDATE (area_m2) ON flats TO clerk;
GRANT INSERT (house, flat, days, person, language, wants, mail), UPDATE (days, person, language, wants, mail)
    ON tenancies TO clerk;
GRANT UPDATE (weight) ON places TO clerk;
GRANT UPDATE (during, vib, unit, first_value, last_value, first_is_estimated, last_is_estimated, most)
    ON fittings TO clerk;
GRANT INSERT (house, use, months, kwh_per_unit, source), UPDATE (months, kwh_per_unit, source), DELETE
    ON factors TO clerk;
GRANT INSERT (house, use, months, unit, cents), UPDATE (months, unit, cents), DELETE ON prices TO clerk;
GRANT INSERT, UPDATE, DELETE ON degree_days TO clerk;
GRANT UPDATE (known_by, note) ON alarms TO clerk;
GRANT EXECUTE ON FUNCTION strike, put_value, decide_use, declare_counter, restart, see_number, leave_month, leave_bill,
    desk.strike, desk.put_value, desk.see_number, desk.declare_counter, desk.restart, desk.exchange, desk.decide_use,
    desk.meter, desk.house, desk.flat, desk.tenant, desk.take_over, desk.hand_back, desk.collect, desk.leave_month,
    desk.returned, desk.address TO clerk;

-- ---- publisher: a clerk who also releases, corrects and sends; office/publish alone writes what is printed
GRANT INSERT (house, month, days, version, file, sha256, program, program_sha256, says) ON audits TO publisher;
GRANT INSERT (audit, house, month, days, version, tenancy, kind, flat, use, place, period, unit, text, mark)
    ON published TO publisher;
GRANT INSERT (house, period, says), UPDATE (says, at), DELETE ON refusals TO publisher;
GRANT INSERT (tenancy, month, form, path, sha256, audit),
    UPDATE (version, out_at, sent_at, sent_to, failed_at, failed_why, audit) ON sheets TO publisher;
GRANT UPDATE (begun_at, ended_at, status, says) ON jobs TO publisher, collector;
GRANT EXECUTE ON FUNCTION release_month, correct_month, release_bill, correct_bill, ask_to_send, desk.release,
    desk.correct_month, desk.send TO publisher;

-- ---- collector: boxes, their readings and orders, and nothing that comes of them
GRANT SELECT ON boxes, box_commands, orders, readings, points, due_readings, meters, collections, jobs TO collector;
GRANT INSERT (box, key, line, confirms, number, state), UPDATE (number, state, answer, ended_at) ON orders TO collector;
GRANT UPDATE (identity, number, confirmed, collected_at, failed_at, fault, clock, clock_at, talks)
    ON boxes TO collector;
GRANT INSERT ON readings, points TO collector;
GRANT INSERT, UPDATE ON due_readings TO collector;
GRANT INSERT, UPDATE, DELETE ON meters TO collector;
GRANT INSERT (boxes), UPDATE (ended_at, failed, readings) ON collections TO collector;
GRANT EXECUTE ON FUNCTION make_months, meet_box, move_reading, find_last_readings TO collector;

-- ---- closer: a reader who also computes days, months and alarms
GRANT SELECT ON frozen_values, published, jobs TO closer;
GRANT INSERT (month, place, part, begins, ends, tenancy, amount, grade, is_held, basis, version), DELETE ON month_use
    TO closer;
GRANT INSERT, UPDATE, DELETE ON frozen_values TO closer;
GRANT UPDATE, DELETE ON to_compute TO closer;
GRANT INSERT (house, month, says), UPDATE (says, seen_at, left_why, left_by), DELETE ON changes TO closer;
GRANT UPDATE (is_to_check, changed, left_why, left_by) ON bills TO closer;
GRANT UPDATE (void_at) ON audits TO closer;
GRANT INSERT (kind, house, subject, says, facts, waits),
    UPDATE (says, ended_at, told_at, facts, waits, done_at, done_by) ON alarms TO closer;
GRANT EXECUTE ON FUNCTION analyze_days, queue_since, close_houses, note_months, put_estimate, note_morning TO closer;

-- ---- desk: the page's login, which becomes one of the first three
GRANT USAGE ON SCHEMA desk TO reader, clerk, publisher, desk;
GRANT SELECT ON people TO desk;
GRANT EXECUTE ON FUNCTION desk.use_form TO reader, clerk;
