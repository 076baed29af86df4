alarm(host:string, ticket:int)
acknowledge(ticket:int, by:string)
begin_work(host:string)
end_work(host:string)
