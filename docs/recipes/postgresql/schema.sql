-- The tables into which follow.py writes inventories. Each key begins with the inventory's name.

BEGIN;
CREATE SCHEMA roadlrs;

-- A measure, `3000` or `12/5`, as a number: exact where it is whole, else to 16 digits at least.
CREATE FUNCTION roadlrs.number_of(measure text) RETURNS numeric LANGUAGE sql IMMUTABLE STRICT PARALLEL SAFE AS
$$ SELECT split_part(measure, '/', 1)::numeric / coalesce(nullif(split_part(measure, '/', 2), ''), '1')::numeric $$;

-- Up to which edit the other tables have an inventory, the sum of its log up to there, and the record of that edit.
CREATE TABLE roadlrs.followed (
    inventory text PRIMARY KEY,
    edits bigint NOT NULL,
    sum text NOT NULL,
    record text NOT NULL,
    written timestamptz NOT NULL DEFAULT now()
);

CREATE TABLE roadlrs.links (
    inventory text,
    link integer,
    length bigint NOT NULL,
    PRIMARY KEY (inventory, link)
);

CREATE TABLE roadlrs.classes (
    inventory text,
    class text,
    kind text NOT NULL,
    PRIMARY KEY (inventory, class)
);

CREATE TABLE roadlrs.routes (
    inventory text,
    route text,
    length bigint NOT NULL,
    PRIMARY KEY (inventory, route)
);

-- The parts of links over which a route runs, in its order: from its chainage `start` on, along the link (+) or against it (-).
CREATE TABLE roadlrs.pieces (
    inventory text,
    route text,
    start bigint,
    link integer NOT NULL,
    from_mm bigint NOT NULL,
    to_mm bigint NOT NULL,
    direction text NOT NULL,
    PRIMARY KEY (inventory, route, start)
);
CREATE INDEX ON roadlrs.pieces (inventory, link);

CREATE TABLE roadlrs.marks (
    inventory text,
    route text,
    chainage bigint,
    measure bigint NOT NULL,
    PRIMARY KEY (inventory, route, chainage)
);

CREATE TABLE roadlrs.referents (
    inventory text,
    referent text,
    route text NOT NULL,
    chainage bigint NOT NULL,
    measure text NOT NULL,
    measure_number numeric GENERATED ALWAYS AS (roadlrs.number_of(measure)) STORED,
    PRIMARY KEY (inventory, referent)
);
CREATE INDEX ON roadlrs.referents (inventory, route);

-- The rows of `roadlrs rows`: chainages and offsets in millimetres, measures as they are written there and as numbers.
CREATE TABLE roadlrs.rows (
    inventory text,
    route text,
    from_mm bigint,
    to_mm bigint NOT NULL,
    side text NOT NULL,
    class text NOT NULL,
    asset bigint,
    value text NOT NULL,
    offset_mm integer NOT NULL,
    entry integer NOT NULL,
    from_measure text NOT NULL,
    to_measure text NOT NULL,
    from_number numeric GENERATED ALWAYS AS (roadlrs.number_of(from_measure)) STORED,
    to_number numeric GENERATED ALWAYS AS (roadlrs.number_of(to_measure)) STORED,
    PRIMARY KEY (inventory, route, from_mm, asset)
);
CREATE INDEX ON roadlrs.rows (inventory, asset);
CREATE INDEX ON roadlrs.rows (class, value);

-- Each row with its class's kind, its route's length, and the edit up to which its inventory is here.
CREATE VIEW roadlrs.stretches AS
    SELECT rows.*, rows.to_mm - rows.from_mm AS length_mm, classes.kind, routes.length AS route_length, followed.edits AS up_to_edit
    FROM roadlrs.rows
    JOIN roadlrs.routes USING (inventory, route)
    JOIN roadlrs.classes USING (inventory, class)
    JOIN roadlrs.followed USING (inventory);
COMMIT;
