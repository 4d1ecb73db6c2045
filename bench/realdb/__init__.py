"""What bench/real-databases is made of: changelogs beside a real PostgreSQL and a real MariaDB."""
