-- What people and programs look at. office/migrate lays it anew.

DROP VIEW IF EXISTS due_values, meter_states, overdue, stale_boxes, month_parts, month_kwh, month_now, bills_now,
    morning, delivery, audits_now, heard, counted;

-- The due-date values of all houses: SELECT * FROM due_values WHERE due = '2024-12-31' AND active.
CREATE VIEW due_values AS
SELECT d.due, d.box, b.active, r.flat, d.identity, d.serial, p.part, p.place, p.storage, p.function, p.tariff,
       p.subunit, p.shown, p.value, p.unit,
       CASE WHEN quantity_of(p.unit) = 'energy' THEN p.value * smallest_units(p.unit) / 3600000000 END AS kwh
FROM due_readings d JOIN boxes b ON b.name = d.box
JOIN readings r ON r.month = d.month AND r.box = d.box AND r.serial = d.serial
JOIN points p ON p.month = d.month AND p.box = d.box AND p.serial = d.serial AND p.due = d.due;

-- The registered meters of active boxes, each with its last reading and what the bits of its status byte say (EN
-- 13757-3).
CREATE VIEW meter_states AS
SELECT m.box, m.flat, m.identity, m.since, m.serial, m.heard, m.stored_at, m.status, concat_ws(', ',
    (ARRAY['application busy', 'application error', 'abnormal condition'])[nullif(m.status & 3, 0)],
    CASE WHEN m.status & 4 <> 0 THEN 'power low' END, CASE WHEN m.status & 8 <> 0 THEN 'permanent error' END,
    CASE WHEN m.status & 16 <> 0 THEN 'temporary error' END,
    CASE WHEN m.status & 224 <> 0 THEN 'manufacturer''s bits ' || (m.status & 224) END) AS says
FROM meters m JOIN boxes b ON b.name = m.box WHERE b.active;

CREATE VIEW overdue AS SELECT * FROM overdue_at(now());

CREATE VIEW stale_boxes AS SELECT * FROM stale_boxes_at(now());

-- The fittings, with what is counted there.
CREATE VIEW counted AS
SELECT f.id AS fitting, f.place, f.house, p.flat, p.use, u.quantity, f.identity, f.vib, f.during, h.zone
FROM fittings f JOIN places p ON p.id = f.place JOIN uses u ON u.use = p.use JOIN houses h ON h.house = p.house;

-- Which box hears a fitting's meter. fitted: when it was fitted; boxed: when the box was the house's; during: both.
CREATE VIEW heard AS
SELECT f.fitting, b.box, f.identity, f.vib, f.quantity, f.zone, f.during AS fitted, b.during AS boxed,
       f.during * b.during AS during
FROM counted f JOIN box_houses b ON b.house = f.house;

CREATE VIEW month_now AS
SELECT u.* FROM month_use u JOIN places p ON p.id = u.place
LEFT JOIN (SELECT house, month, max(version) AS version FROM versions GROUP BY house, month) v
  ON (v.house, v.month) = (p.house, u.month)
WHERE u.version = coalesce(v.version, 1);

-- What may be shown of a month: grade is 'held' of a held number that nobody has seen.
CREATE VIEW month_kwh AS
SELECT k.month, p.house, p.flat, p.use, p.number, k.place, k.part, k.begins, k.ends, k.tenancy, k.grade, k.is_held,
       CASE WHEN s.quantity <> 'energy' THEN k.amount * p.weight
                 / smallest_units(CASE s.quantity WHEN 'volume' THEN 'm3' ELSE 'HCA' END) END AS units,
       CASE s.quantity WHEN 'energy' THEN k.amount / 3600000000.0
                       WHEN 'volume' THEN k.amount / 1000000.0 * f.kwh_per_unit
                       ELSE k.amount / 1000.0 * p.weight * f.kwh_per_unit END AS kwh,
       k.basis, k.amount, s.quantity = 'energy' OR f.kwh_per_unit IS NOT NULL AS has_kwh, s.quantity, s.position,
       s.is_charted, k.version
FROM (SELECT u.month, u.place, u.part, u.begins, u.ends, u.tenancy, u.is_held, u.basis, u.version,
             CASE WHEN o.is_open THEN 'held' ELSE u.grade::text END AS grade,
             CASE WHEN NOT o.is_open THEN u.amount END AS amount
      FROM month_now u CROSS JOIN LATERAL (SELECT u.is_held AND u.amount IS NOT NULL AND NOT EXISTS (
          SELECT FROM seen n
          WHERE (n.month, n.place, n.part, n.amount) = (u.month, u.place, u.part, u.amount))) AS o (is_open)) k
JOIN places p ON p.id = k.place JOIN uses s ON s.use = p.use
LEFT JOIN factors f ON f.house = p.house AND f.use = p.use AND f.months @> k.month;

-- The present version of each bill.
CREATE VIEW bills_now AS SELECT DISTINCT ON (house, days) * FROM bills ORDER BY house, days, version DESC;

CREATE VIEW morning AS
SELECT a.id, a.kind, a.house, h.address, h.zone, a.facts ->> 'flat' AS flat, a.subject, a.says, a.facts, a.waits,
       a.since, a.since > now() - interval '24 hours' AS is_new, a.known_by, a.note, a.done_at, a.done_by, a.ended_at
FROM alarms a LEFT JOIN houses h ON h.house = a.house
WHERE a.ended_at IS NULL OR a.ended_at > now() - interval '24 hours';

-- The file of a sheet that goes out: of each user the last one, in the form that the user wants.
CREATE VIEW delivery AS
SELECT DISTINCT ON (s.tenancy, s.month) s.id, s.tenancy, s.month, s.version, s.form, s.path, s.out_at, s.sent_at,
    s.sent_to, s.failed_at, s.failed_why, t.house, t.flat, t.person, t.language, t.wants, t.mail, t.token, h.address,
    h.postcode, h.contact
FROM sheets s JOIN tenancies t ON t.id = s.tenancy JOIN houses h ON h.house = t.house
WHERE s.out_at IS NOT NULL AND (t.wants, s.form) IN (('link', 'html'), ('paper', 'pdf'))
ORDER BY s.tenancy, s.month, s.version DESC, s.out_at DESC, s.id DESC;

-- Of each month and bill the audit of its present version that holds.
CREATE VIEW audits_now AS
SELECT DISTINCT ON (a.house, a.month, a.days) a.id, a.house, a.month, a.days, a.version, a.made_at FROM audits a
WHERE a.void_at IS NULL AND a.version = coalesce(
    (SELECT max(version) FROM versions v WHERE (v.house, v.month) = (a.house, a.month)),
    (SELECT max(version) FROM bills b WHERE (b.house, b.days) = (a.house, a.days)), 1)
ORDER BY a.house, a.month, a.days, a.id DESC;

-- The parts of a month that add up to it: of its users, or the whole where it was one's.
CREATE VIEW month_parts AS SELECT k.* FROM month_kwh k
WHERE k.part > 0 OR NOT EXISTS (SELECT FROM month_use u
    WHERE (u.month, u.place, u.version, u.part) = (k.month, k.place, k.version, 1));
