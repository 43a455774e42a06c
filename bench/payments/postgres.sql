-- The payment of examples/payments/procedures/pay.json, for PostgreSQL.
create table today (day bigint not null);
create table balance (account bigint primary key, cents bigint not null);
create table payment (id bigint primary key, payer bigint not null, payee bigint not null, amount bigint not null,
                      from_has bigint not null, to_has bigint not null);
create table spent (account bigint, day bigint, cents bigint not null, primary key (account, day));
insert into today values (20000);
insert into balance select account, 100000000 from generate_series(0, 999) account;

-- With `has_fee` account 0 gets the fee, as by pay.json: then every two payments of the same moment conflict. Nobody would keep such a row
-- in PostgreSQL, so it is measured without it, too.
create function pay(number bigint, sender bigint, receiver bigint, cents_paid bigint, has_fee boolean) returns bigint language plpgsql as $$
declare
  earlier payment;
  sender_has bigint;
  receiver_has bigint;
  fee bigint := cents_paid / 100;
  so_far bigint;
  now_day bigint;
begin
  select * into earlier from payment where id = number;
  if found then
    if earlier.payer <> sender or earlier.payee <> receiver or earlier.amount <> cents_paid then
      raise exception 'the id belongs to another payment';
    end if;
    return earlier.from_has;
  end if;
  if cents_paid < 1 then raise exception 'the amount is not above zero'; end if;
  if sender = receiver then raise exception 'payer and payee are the same account'; end if;
  select cents into sender_has from balance where account = sender;
  if not found then raise exception 'there is no such payer'; end if;
  select cents into receiver_has from balance where account = receiver;
  if not found then raise exception 'there is no such payee'; end if;
  if sender_has < cents_paid + fee then raise exception 'the payer does not have that much'; end if;
  select day into now_day from today;
  select cents into so_far from spent where account = sender and day = now_day;
  if coalesce(so_far, 0) + cents_paid > 1000000 then raise exception 'the payer has reached the limit of the day'; end if;
  insert into spent values (sender, now_day, cents_paid)
    on conflict (account, day) do update set cents = spent.cents + excluded.cents;
  update balance set cents = cents - cents_paid - fee where account = sender;
  update balance set cents = cents + cents_paid where account = receiver;
  if has_fee then update balance set cents = cents + fee where account = 0; end if;
  insert into payment values (number, sender, receiver, cents_paid, sender_has - cents_paid - fee, receiver_has + cents_paid);
  return sender_has - cents_paid - fee;
end $$;
vacuum analyze;
