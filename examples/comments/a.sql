-- Comments count for nothing, and what stands in texts and comments ends no statement;
CREATE TABLE shelf (n INT /* how many; */, item VARCHAR(5));
INSERT INTO shelf VALUES (2, 'a;b'), (1, 'it''s'); -- two rows
/* nothing here; /* nested; */ nor here; */
SELECT item FROM shelf WHERE n >= 1;
-- the end
