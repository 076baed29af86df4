alarm(host:string, ticket:int)
acknowledge(ticket:int, by:string)
cancel(ticket:int)
