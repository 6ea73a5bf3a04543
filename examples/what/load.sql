create table t(a, b, c); create index ti on t(a); create table u(x primary key, y text); create view v as select a from t;
with recursive n(i) as (select 1 union all select i + 1 from n where i < 3000) insert into t select i, 'b' || i, i * 2 from n;
select count(*) from t where a > 100; select * from t natural join u limit 3; select sum(a), c % 7 from t group by c % 7;
create trigger tr after insert on u begin insert into t values(new.x, new.y, 1); end; insert into u values(1, 'q');
