login(user:string, host:string)
logout(user:string, host:string)
open(user:string, host:string, file:string)
