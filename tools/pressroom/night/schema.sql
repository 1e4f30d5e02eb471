-- The journal of the night: SPOOL/journal/night.db, schema version 1 (PRAGMA user_version).
-- journal.py sets the pragmas of each connection and begins each write by BEGIN IMMEDIATE.
-- Nothing is stored that other rows already say. The views say what is so and what may be done. The scheduler reads
-- them to find work, the transaction reads them again to take it, and triggers refuse what they don't allow.

CREATE TABLE house (                        -- each house file that was ever in force, whole
  id INTEGER PRIMARY KEY,
  sum TEXT NOT NULL UNIQUE CHECK (length(sum) = 64),
  text TEXT NOT NULL CHECK (length(text) < 1000000),
  at REAL NOT NULL
) STRICT;

CREATE TABLE spool (                        -- one row
  one INTEGER PRIMARY KEY CHECK (one = 1),
  id TEXT NOT NULL CHECK (length(id) = 16), -- random; a copied spool gets another one
  epoch INTEGER NOT NULL DEFAULT 0,         -- how often a service began on it
  house INTEGER REFERENCES house,           -- the last good house file, for new editions
  boot TEXT NOT NULL DEFAULT ''             -- the boot of which `seen` and `until` count the seconds
) STRICT;

CREATE TABLE edition (
  id INTEGER PRIMARY KEY AUTOINCREMENT,
  name TEXT NOT NULL CHECK (length(name) <= 64 AND name GLOB '[A-Za-z0-9]*' AND name NOT GLOB '*[^A-Za-z0-9_.-]*'),
  day TEXT CHECK (day GLOB '[0-9][0-9][0-9][0-9]-[0-1][0-9]-[0-3][0-9]'),
  house INTEGER NOT NULL REFERENCES house,  -- pinned; changed by `pressroom house --apply` alone
  toml TEXT CHECK (length(toml) <= 65536),  -- its edition.toml as it was when the edition began
  settings TEXT NOT NULL,                   -- sum of all that a render depends on besides its page
  ask INTEGER NOT NULL CHECK (ask IN (0, 1)),
  deliver TEXT NOT NULL DEFAULT 'pair' CHECK (deliver IN ('pair', 'edition')),
  state TEXT NOT NULL DEFAULT 'open' CHECK (state IN ('open', 'cancelled', 'closed')),
  at REAL NOT NULL
) STRICT;
CREATE UNIQUE INDEX edition_name ON edition (name) WHERE state <> 'closed';

CREATE TABLE site (                         -- a site of an edition, by its pinned house
  id INTEGER PRIMARY KEY,
  edition INTEGER NOT NULL REFERENCES edition,
  name TEXT NOT NULL CHECK (length(name) BETWEEN 1 AND 16 AND name NOT GLOB '*[^A-Za-z0-9_]*'),
  press TEXT NOT NULL,
  zone TEXT NOT NULL DEFAULT '',
  press_at REAL,                            -- when its press starts, by the wall clock
  lead REAL NOT NULL DEFAULT 0,             -- minutes to the first plate on the press
  plate_seconds REAL NOT NULL DEFAULT 0,
  UNIQUE (edition, name)
) STRICT;

CREATE TABLE blob (                         -- a page as it came: store/SHA is on the disk and synced
  sha TEXT PRIMARY KEY CHECK (length(sha) = 64 AND sha NOT GLOB '*[^0-9a-f]*'),
  kind TEXT NOT NULL CHECK (kind IN ('pdf', 'tiff')),
  bytes INTEGER NOT NULL CHECK (bytes > 0)
) STRICT, WITHOUT ROWID;

CREATE TABLE look_in (                      -- what was seen in in/, by device, inode, size and times: taken or told once
  stamp TEXT PRIMARY KEY,
  edition INTEGER REFERENCES edition,
  name BLOB NOT NULL,                       -- bytes, below in/; shown with escapes
  result TEXT NOT NULL CHECK (result IN ('page', 'same', 'stray', 'unfit')),
  at REAL NOT NULL
) STRICT, WITHOUT ROWID;
CREATE INDEX look_in_edition ON look_in (edition);

CREATE TABLE place (                        -- a planned page of an edition, in a zone or ('') for all
  id INTEGER PRIMARY KEY,
  edition INTEGER NOT NULL REFERENCES edition,
  zone TEXT NOT NULL DEFAULT '',
  section TEXT NOT NULL CHECK (length(section) BETWEEN 1 AND 16),
  number INTEGER NOT NULL CHECK (number BETWEEN 1 AND 999),
  blank INTEGER NOT NULL DEFAULT 0 CHECK (blank IN (0, 1)),
  held INTEGER NOT NULL DEFAULT 0 CHECK (held IN (0, 1)),     -- by place: it outlives each new arrival
  held_by TEXT, held_at REAL, held_word TEXT,
  seen INTEGER NOT NULL DEFAULT 0,          -- the newest arrival that the last release named
  UNIQUE (edition, zone, section, number)
) STRICT;

CREATE TABLE arrival (                      -- a page that came for a place. The later one wins, whichever verdict is later
  id INTEGER PRIMARY KEY AUTOINCREMENT,
  place INTEGER NOT NULL REFERENCES place,
  sha TEXT NOT NULL REFERENCES blob,
  name BLOB NOT NULL,
  at REAL NOT NULL
) STRICT;
CREATE INDEX arrival_place ON arrival (place, id);
CREATE INDEX arrival_sha ON arrival (sha);

CREATE TABLE render (                       -- the verdict of intake on a page under some settings
  key INTEGER PRIMARY KEY AUTOINCREMENT,
  sha TEXT NOT NULL REFERENCES blob,
  settings TEXT NOT NULL,
  state TEXT NOT NULL CHECK (state IN ('accepted', 'refused')),
  folder TEXT UNIQUE,                       -- renders/FOLDER has the layers, synced; named by its job, never reused
  inks TEXT NOT NULL DEFAULT '',
  layers TEXT NOT NULL DEFAULT '[]' CHECK (layers LIKE '[%]'),
  fault TEXT CHECK (fault LIKE '{%}'),    -- of a refused page: kind, text, at_mm
  notes TEXT NOT NULL DEFAULT '[]' CHECK (notes LIKE '[%]'),
  seconds REAL NOT NULL DEFAULT 0,
  at REAL NOT NULL DEFAULT 0,
  CHECK ((state = 'accepted') = (folder IS NOT NULL) AND (state = 'refused') = (fault IS NOT NULL)),
  UNIQUE (sha, settings)
) STRICT;

CREATE TABLE verdict (                      -- of a person, on what he saw: this render of this arrival
  arrival INTEGER NOT NULL REFERENCES arrival,
  render INTEGER NOT NULL REFERENCES render,
  verdict TEXT NOT NULL CHECK (verdict IN ('approved', 'rejected')),
  word TEXT NOT NULL DEFAULT '',
  who TEXT NOT NULL,
  at REAL NOT NULL,
  PRIMARY KEY (arrival, render)
) STRICT, WITHOUT ROWID;

CREATE TABLE pair (                         -- a pair at a site: the unit of work
  id INTEGER PRIMARY KEY,
  site INTEGER NOT NULL REFERENCES site,
  section TEXT NOT NULL,
  number INTEGER NOT NULL CHECK (number > 0),
  left INTEGER NOT NULL REFERENCES place,
  right INTEGER NOT NULL REFERENCES place,
  making TEXT NOT NULL,   -- sum of press settings, edition, section, page count, number, plateroom's version
  leave_by REAL,          -- by the wall clock, where the site has a press start
  warned INTEGER NOT NULL DEFAULT 0 CHECK (warned IN (0, 1)),   -- it was told that it will be late
  UNIQUE (site, section, number)
) STRICT;
CREATE INDEX pair_left ON pair (left);
CREATE INDEX pair_right ON pair (right);

CREATE TABLE plates (                       -- plates of a pair, verified and synced; shared by sites
  id INTEGER PRIMARY KEY,
  left INTEGER NOT NULL,                    -- render.key, 0 for a blank page
  right INTEGER NOT NULL,
  making TEXT NOT NULL,
  folder TEXT NOT NULL UNIQUE,              -- plates/FOLDER, named by its job, never reused
  sums TEXT NOT NULL,                       -- SHA-256 of its SHA256SUMS
  seconds REAL NOT NULL DEFAULT 0,
  at REAL NOT NULL DEFAULT 0,
  UNIQUE (left, right, making)
) STRICT;

CREATE TABLE plate (
  plates INTEGER NOT NULL REFERENCES plates ON DELETE CASCADE,
  name TEXT NOT NULL,
  sha TEXT NOT NULL,
  empty INTEGER NOT NULL DEFAULT 0 CHECK (empty IN (0, 1)),   -- prints nothing
  PRIMARY KEY (plates, name)
) STRICT, WITHOUT ROWID;

CREATE TABLE whole (                        -- `verify` of a site's whole plan said `same` for this list
  site INTEGER NOT NULL REFERENCES site,
  list TEXT NOT NULL,
  at REAL NOT NULL,
  PRIMARY KEY (site, list)
) STRICT, WITHOUT ROWID;

CREATE TABLE version (                      -- what is sent to a site: plates of a pair, some again, or that all are there
  id INTEGER PRIMARY KEY AUTOINCREMENT,     -- its number: never reused, in time order whatever the clock says
  site INTEGER NOT NULL REFERENCES site,
  kind TEXT NOT NULL CHECK (kind IN ('plates', 'resend', 'complete')),
  pair INTEGER REFERENCES pair,
  plates INTEGER REFERENCES plates,
  sums TEXT NOT NULL,                       -- of plates: theirs; of complete: of the list
  of INTEGER REFERENCES version,            -- resend: the version beside which it is put
  nth INTEGER,                              -- resend: its number there, from 1
  since INTEGER REFERENCES version,         -- the version that the site surely had when this one began
  list TEXT,                                -- complete: each pair, its version and sums
  folder TEXT NOT NULL,                     -- below the site's own folder; its name ends with the start of READY's sum
  ready TEXT NOT NULL,                      -- the bytes of READY
  state TEXT NOT NULL DEFAULT 'queued'
    CHECK (state IN ('queued', 'sending', 'leaving', 'unknown', 'sent', 'kept', 'old', 'dropped')),
  went REAL,                                -- when it was first `leaving`: from then on its site may have acted on it
  seen REAL,                                -- seconds since the boot. sent: when; unknown: when READY was first missed
  acked REAL,
  at REAL NOT NULL DEFAULT 0,
  moved REAL NOT NULL DEFAULT 0,            -- when it came into its state
  CHECK ((kind = 'complete') = (pair IS NULL) AND (kind = 'complete') = (plates IS NULL)),
  CHECK ((kind = 'complete') = (list IS NOT NULL)),
  CHECK ((kind = 'resend') = (of IS NOT NULL) AND (kind = 'resend') = (nth IS NOT NULL)),
  CHECK (state IN ('queued', 'sending', 'dropped') OR went IS NOT NULL)
) STRICT;
CREATE UNIQUE INDEX version_open ON version (site, ifnull(pair, 0))
  WHERE state IN ('queued', 'sending', 'leaving', 'unknown');
CREATE UNIQUE INDEX version_there ON version (site, ifnull(pair, 0)) WHERE state IN ('sent', 'kept') AND kind <> 'resend';
CREATE UNIQUE INDEX version_nth ON version (of, nth) WHERE of IS NOT NULL;
CREATE INDEX version_pair ON version (pair, state);
CREATE INDEX version_site ON version (site, state);

CREATE TABLE request (                      -- plates to be sent again: each is answered by one version
  id INTEGER PRIMARY KEY,
  pair INTEGER NOT NULL REFERENCES pair,
  plate TEXT,                               -- one plate's name, or all
  reason TEXT NOT NULL,
  who TEXT NOT NULL,
  at REAL NOT NULL DEFAULT 0,
  version INTEGER REFERENCES version
) STRICT;
CREATE INDEX request_open ON request (pair) WHERE version IS NULL;
CREATE INDEX request_version ON request (version);

CREATE TABLE pause (                        -- attempts that failed for no fault of the page
  kind TEXT NOT NULL CHECK (kind IN ('take', 'page', 'plates', 'whole', 'site', 'disk', 'house')),
  key TEXT NOT NULL,
  tries INTEGER NOT NULL,
  fault TEXT NOT NULL CHECK (fault IN ('machine', 'network', 'house', 'limit')),
  why TEXT NOT NULL,
  since REAL NOT NULL,                      -- by the wall clock
  alerted INTEGER NOT NULL DEFAULT 0 CHECK (alerted IN (0, 1)),
  until REAL NOT NULL,                      -- seconds since the boot; of another boot the pause is over
  PRIMARY KEY (kind, key)
) STRICT, WITHOUT ROWID;

CREATE TABLE event (                        -- append only: the text is made from these, and not stored
  seq INTEGER PRIMARY KEY AUTOINCREMENT,
  at REAL NOT NULL,
  name TEXT NOT NULL,
  edition TEXT, site TEXT, page TEXT, pair TEXT, version INTEGER,
  who TEXT,
  more TEXT NOT NULL DEFAULT '{}' CHECK (more LIKE '{%}')
) STRICT;
CREATE INDEX event_edition ON event (edition, seq);

CREATE TABLE output (name TEXT PRIMARY KEY, seq INTEGER NOT NULL) STRICT, WITHOUT ROWID;  -- printed up to here

-- ---- what is so

CREATE VIEW place_now AS                    -- each place: its newest arrival, and the newest that isn't refused
SELECT p.id AS place, p.edition, p.zone, p.section, p.number, p.blank, p.held, e.settings, e.ask, e.state AS edition_state,
  (SELECT max(a.id) FROM arrival a WHERE a.place = p.id) AS newest,
  (SELECT max(a.id) FROM arrival a WHERE a.place = p.id AND NOT EXISTS
    (SELECT 1 FROM render x WHERE x.sha = a.sha AND x.settings = e.settings AND x.state = 'refused')) AS arrival
FROM place p
JOIN edition e ON e.id = p.edition;

CREATE VIEW page AS                         -- each place, what prints there, and its state
SELECT n.place, n.edition, n.zone, n.section, n.number, n.held, n.newest, n.arrival, a.sha,
  CASE WHEN n.blank THEN 0 ELSE r.key END AS render,
  CASE
    WHEN n.blank THEN 'ready'
    WHEN n.newest IS NULL THEN 'absent'
    WHEN n.arrival IS NULL THEN 'refused'   -- all that came
    WHEN r.key IS NULL THEN 'arrived'       -- no verdict of intake yet: nothing older leaves
    WHEN n.held THEN 'held'
    -- what was rejected stays so when the same bytes come again, until somebody approves that arrival
    WHEN v.verdict = 'rejected' OR v.verdict IS NULL AND EXISTS
      (SELECT 1 FROM arrival b JOIN verdict w ON w.arrival = b.id AND w.render = r.key
       WHERE b.place = n.place AND w.verdict = 'rejected') THEN 'rejected'
    WHEN n.ask AND v.verdict IS NULL THEN 'asks'
    ELSE 'ready'
  END AS state
FROM place_now n
LEFT JOIN arrival a ON a.id = n.arrival
LEFT JOIN render r ON r.sha = a.sha AND r.settings = n.settings AND r.state = 'accepted'
LEFT JOIN verdict v ON v.arrival = n.arrival AND v.render = r.key;

CREATE VIEW pair_now AS                     -- each pair at a site: its pages, and the plates that they want
SELECT pair.id AS pair, pair.site, e.id AS edition, e.state AS edition_state, e.deliver, pair.making, pair.leave_by,
  l.render AS left, r.render AS right, l.state AS left_state, r.state AS right_state,
  e.state = 'open' AND l.state IN ('ready', 'asks') AND r.state IN ('ready', 'asks') AS may_make,
  e.state = 'open' AND l.state = 'ready' AND r.state = 'ready' AS may_leave,
  plates.id AS plates, plates.sums
FROM pair
JOIN site s ON s.id = pair.site
JOIN edition e ON e.id = s.edition
JOIN page l ON l.place = pair.left
JOIN page r ON r.place = pair.right
LEFT JOIN plates ON plates.left = l.render AND plates.right = r.render AND plates.making = pair.making;

CREATE VIEW there AS                        -- the version of each pair that its site was seen to have
SELECT v.id, v.site, v.pair, v.sums, v.state FROM version v
WHERE v.kind = 'plates' AND v.state IN ('sent', 'kept');

CREATE VIEW site_now AS                     -- each site of an edition: whether all is there, and the list of it
SELECT s.id AS site, s.edition,
  NOT EXISTS (SELECT 1 FROM pair_now n LEFT JOIN there v ON v.pair = n.pair
              WHERE n.site = s.id AND NOT (n.may_leave AND v.state IS 'kept' AND v.sums IS n.sums)) AND
  NOT EXISTS (SELECT 1 FROM version o WHERE o.site = s.id AND o.kind = 'plates'
              AND o.state IN ('queued', 'sending', 'leaving', 'unknown')) AS is_whole,
  (SELECT group_concat(line, char(10)) FROM
    (SELECT n.pair || ' ' || ifnull(v.id, 0) || ' ' || ifnull(n.sums, '') AS line
     FROM pair_now n LEFT JOIN there v ON v.pair = n.pair
     WHERE n.site = s.id ORDER BY n.pair)) AS list
FROM site s;

-- ---- what may be done

CREATE VIEW due_render AS                   -- pages without a verdict under their edition's settings: one a place at most
SELECT DISTINCT g.sha, e.settings, e.id AS edition, g.place, g.arrival
FROM page g JOIN edition e ON e.id = g.edition
WHERE e.state = 'open' AND g.state = 'arrived';

CREATE VIEW due_plates AS
SELECT DISTINCT left, right, making, edition FROM pair_now WHERE may_make AND plates IS NULL;

CREATE VIEW due_version AS                  -- a pair that its site doesn't have
SELECT n.pair, n.site, n.edition, n.plates, n.sums,
  -- of what its site may have seen since, even for a moment, nothing is assumed: then all plates are exposed
  CASE WHEN NOT EXISTS (SELECT 1 FROM version o WHERE o.pair = n.pair AND o.id > there.id AND o.went IS NOT NULL
                        AND o.kind = 'plates') THEN there.id END AS since
FROM pair_now n
LEFT JOIN there ON there.pair = n.pair
WHERE n.may_leave AND n.plates IS NOT NULL AND there.sums IS NOT n.sums
  AND NOT EXISTS (SELECT 1 FROM version o WHERE o.pair = n.pair
                  AND o.state IN ('queued', 'sending', 'leaving', 'unknown'))
  AND (n.deliver = 'pair' OR NOT EXISTS
       (SELECT 1 FROM pair_now m WHERE m.site = n.site AND NOT (m.may_leave AND m.plates IS NOT NULL)));

CREATE VIEW due_resend AS                   -- a pair that its site has, and has asked for again
SELECT n.pair, n.site, n.edition, n.plates, n.sums, there.id AS of
FROM pair_now n
JOIN there ON there.pair = n.pair AND there.sums = n.sums
WHERE n.may_leave
  AND EXISTS (SELECT 1 FROM request q WHERE q.pair = n.pair AND q.version IS NULL)
  AND NOT EXISTS (SELECT 1 FROM version o WHERE o.pair = n.pair
                  AND o.state IN ('queued', 'sending', 'leaving', 'unknown'));

CREATE VIEW due_whole AS                    -- sites that have all, and whose plates weren't verified together
SELECT w.site, w.edition, w.list FROM site_now w
WHERE w.is_whole AND NOT EXISTS (SELECT 1 FROM whole o WHERE o.site = w.site AND o.list = w.list);

CREATE VIEW due_complete AS
SELECT w.site, w.edition, w.list FROM site_now w
WHERE w.is_whole AND EXISTS (SELECT 1 FROM whole o WHERE o.site = w.site AND o.list = w.list)
  AND NOT EXISTS (SELECT 1 FROM version o WHERE o.site = w.site AND o.kind = 'complete'
                  AND (o.state IN ('queued', 'sending', 'leaving', 'unknown')
                       OR o.state IN ('sent', 'kept') AND o.list = w.list));

CREATE VIEW may_leave AS                    -- versions that may become READY at their site at this moment
SELECT v.id AS version FROM version v JOIN pair_now n ON n.pair = v.pair AND n.may_leave AND n.sums = v.sums
WHERE v.kind = 'plates' OR EXISTS (SELECT 1 FROM there o WHERE o.id = v.of)
UNION ALL
SELECT v.id FROM version v JOIN site_now w ON w.site = v.site AND w.is_whole AND w.list = v.list
WHERE v.kind = 'complete' AND EXISTS (SELECT 1 FROM whole o WHERE o.site = v.site AND o.list = v.list);

CREATE VIEW superseded AS                   -- queued versions that will never be right again as they are
SELECT v.id AS version FROM version v JOIN pair_now n ON n.pair = v.pair
WHERE v.state = 'queued' AND (n.edition_state <> 'open' OR n.sums IS NOT NULL AND n.sums IS NOT v.sums
  OR v.kind = 'resend' AND NOT EXISTS (SELECT 1 FROM there o WHERE o.id = v.of))
UNION ALL
SELECT v.id FROM version v JOIN site_now w ON w.site = v.site
WHERE v.kind = 'complete' AND v.state = 'queued' AND (NOT w.is_whole OR w.list <> v.list);

-- ---- what can't be done

CREATE TRIGGER version_moves BEFORE UPDATE OF state ON version
WHEN OLD.state || '>' || NEW.state NOT IN ('queued>sending', 'queued>dropped', 'sending>leaving', 'sending>queued',
  'leaving>sent', 'leaving>unknown', 'unknown>sent', 'unknown>queued', 'sent>kept', 'sent>queued', 'kept>queued',
  'sent>old', 'kept>old')
BEGIN SELECT raise(ABORT, 'no such transition'); END;

CREATE TRIGGER version_leaves BEFORE UPDATE OF state ON version
WHEN NEW.state = 'leaving' AND NOT EXISTS (SELECT 1 FROM may_leave m WHERE m.version = NEW.id)
BEGIN SELECT raise(ABORT, 'may not leave'); END;

CREATE TRIGGER version_begins BEFORE INSERT ON version WHEN NEW.state <> 'queued'
BEGIN SELECT raise(ABORT, 'a version begins as queued'); END;

CREATE TRIGGER version_fixed
BEFORE UPDATE OF id, site, kind, pair, plates, sums, of, nth, since, list, folder, ready ON version
BEGIN SELECT raise(ABORT, 'a version never changes'); END;

CREATE TRIGGER version_dropped AFTER UPDATE OF state ON version WHEN NEW.state = 'dropped'
BEGIN UPDATE request SET version = NULL WHERE version = NEW.id; END;   -- what was asked for is still wanted

CREATE TRIGGER verdict_seen BEFORE INSERT ON verdict
WHEN NOT EXISTS (SELECT 1 FROM arrival a JOIN page g ON g.place = a.place
                 WHERE a.id = NEW.arrival AND g.arrival = NEW.arrival AND g.render = NEW.render)
BEGIN SELECT raise(ABORT, 'stale'); END;

CREATE TRIGGER release_seen BEFORE UPDATE OF held ON place
WHEN OLD.held AND NOT NEW.held AND NOT EXISTS
  (SELECT 1 FROM page g WHERE g.place = NEW.id AND g.state <> 'arrived' AND ifnull(g.newest, 0) = NEW.seen)
BEGIN SELECT raise(ABORT, 'stale'); END;

CREATE TRIGGER arrival_fixed BEFORE UPDATE ON arrival BEGIN SELECT raise(ABORT, 'an arrival never changes'); END;
CREATE TRIGGER event_fixed BEFORE UPDATE ON event BEGIN SELECT raise(ABORT, 'events never change'); END;
CREATE TRIGGER event_stays BEFORE DELETE ON event
WHEN EXISTS (SELECT 1 FROM edition e WHERE e.name = OLD.edition AND e.state <> 'closed')
BEGIN SELECT raise(ABORT, 'events of an open edition stay'); END;

CREATE TRIGGER render_fixed BEFORE UPDATE OF sha, settings, state, inks, layers, fault, notes ON render
BEGIN SELECT raise(ABORT, 'a verdict never changes'); END;

CREATE TRIGGER plates_fixed BEFORE UPDATE OF left, right, making, sums ON plates
BEGIN SELECT raise(ABORT, 'plates never change'); END;

PRAGMA user_version = 1;
