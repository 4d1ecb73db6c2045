--liquibase formatted sql

--changeset bob:1 labels:orders
--comment: What was bought
CREATE TABLE purchase (
    id bigint ${numbered} PRIMARY KEY,
    customer_id int NOT NULL,
    total ${money} DEFAULT 0,
    paid boolean DEFAULT FALSE NOT NULL
);
ALTER TABLE purchase ADD CONSTRAINT fk_purchase_customer
    FOREIGN KEY (customer_id) REFERENCES customer (id) ON DELETE CASCADE;
CREATE INDEX ix_purchase_customer ON purchase (customer_id);
--rollback DROP TABLE purchase;

--changeset bob:2 labels:stock
--comment: How many of each product there are
ALTER TABLE product ADD COLUMN stock int DEFAULT 0 NOT NULL;
--rollback ALTER TABLE product DROP COLUMN stock;

--changeset bob:3 dbms:postgresql
--comment: MySQL has no sequences
CREATE SEQUENCE invoice_number START WITH 1000 INCREMENT BY 1;
--rollback DROP SEQUENCE invoice_number;
