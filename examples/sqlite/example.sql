.load ./sfbuild_sqlite
CREATE VIRTUAL TABLE city USING sfbuild(id int, name text, people int, capital flag);
INSERT INTO city VALUES (1, 'Kyoto', 1460000, 0), (2, 'Lyon', 520000, 0), (3, 'Lima', 10100000, 1), (4, 'Oslo', 710000, 1);
SELECT sfbuild_index('city', 'people desc, name');
-- A write does a piece of the build, a commit another one.
BEGIN;
UPDATE city SET people = 522000 WHERE name = 'Lyon';
DELETE FROM city WHERE id = 1;
SELECT sfbuild_progress('city');
ROLLBACK;
SELECT sfbuild_step('city', 100);
EXPLAIN QUERY PLAN SELECT name FROM city WHERE people < 2000000 ORDER BY people DESC;
SELECT name FROM city WHERE people < 2000000 ORDER BY people DESC;
-- Two rows share a name, so a unique index on it is refused.
INSERT INTO city VALUES (5, 'Lima', 38000, 0);
SELECT sfbuild_index('city', 'name', 'unique');
SELECT sfbuild_step('city', 100);
DELETE FROM city WHERE id = 5;
SELECT sfbuild_index('city', 'name', 'unique');
SELECT sfbuild_step('city', 100);
-- From now on no two rows may. A statement that is refused changes nothing.
INSERT INTO city VALUES (6, 'Bergen', 290000, 0), (7, 'Oslo', 1, 0);
SELECT id, name, people, capital FROM city ORDER BY name;
