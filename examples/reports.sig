approve(report:int, by:string)
publish(report:int)
