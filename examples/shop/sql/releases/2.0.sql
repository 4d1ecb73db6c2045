--liquibase formatted sql

--changeset cat:1 dbms:postgresql
--comment: A gift costs nothing, and says so
--preconditions onFail:HALT
--precondition-sql-check expectedResult:0 SELECT COUNT(*) FROM product WHERE price < 0
UPDATE product SET price = 0 WHERE price IS NULL;
ALTER TABLE product ALTER COLUMN price SET NOT NULL;
--rollback ALTER TABLE product ALTER COLUMN price DROP NOT NULL;

--changeset cat:1-mysql dbms:mysql
--comment: A gift costs nothing, and says so
UPDATE product SET price = 0 WHERE price IS NULL;
ALTER TABLE product MODIFY price ${money} NOT NULL;
--rollback ALTER TABLE product MODIFY price ${money} NULL;

--changeset cat:2
ALTER TABLE customer RENAME COLUMN since TO joined;
ALTER TABLE customer ADD COLUMN note text;
--rollback ALTER TABLE customer DROP COLUMN note;
--rollback ALTER TABLE customer RENAME COLUMN joined TO since;

--changeset cat:3 runOnChange:true
--comment: Runs again whenever its query is edited
CREATE OR REPLACE VIEW unpaid AS
    SELECT id, customer_id, total FROM purchase WHERE paid = FALSE;
--rollback DROP VIEW unpaid;

--changeset cat:4 context:"!demo"
--comment: Something to sell
INSERT INTO product (id, title, price, stock) VALUES (3, 'A voucher', 25.00, 100);
--rollback DELETE FROM product WHERE id = 3;
