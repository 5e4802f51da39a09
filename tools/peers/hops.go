// The programs of tools/measure-hops as goroutines over unbuffered channels. usage: hops PROGRAM NUMBER..
package main

import (
	"fmt"
	"os"
	"strconv"
)

func number(at int) int {
	n, err := strconv.Atoi(os.Args[at])
	if err != nil {
		panic(err)
	}
	return n
}

// A token goes round a ring of so many servers.
func ring(size, hops int, done chan struct{}) {
	servers := make([]chan int, size)
	for i := range servers {
		servers[i] = make(chan int)
	}
	for i := range servers {
		in, out := servers[i], servers[(i+1)%size]
		go func() {
			for n := range in {
				if n == 0 {
					done <- struct{}{}
				} else {
					out <- n - 1
				}
			}
		}()
	}
	servers[0] <- hops
}

func rings(sizes []int, hops int) {
	done := make(chan struct{})
	for _, size := range sizes {
		go ring(size, hops, done)
	}
	for range sizes {
		<-done
		fmt.Print(".")
	}
}

type request struct {
	n      int
	answer chan int
}

func clients(count, each int) {
	serve, done := make(chan request), make(chan struct{})
	go func() {
		for it := range serve {
			it.answer <- it.n + 1
		}
	}()
	for k := 1; k <= count; k++ {
		go func(n int) {
			for left := each; left > 0; left-- {
				answer := make(chan int)
				serve <- request{n, answer}
				n = <-answer
			}
			done <- struct{}{}
		}(k)
	}
	for k := 0; k < count; k++ {
		<-done
	}
	fmt.Print("done")
}

func fork(n int, answer chan int) {
	if n < 2 {
		answer <- n
		return
	}
	a, b := make(chan int), make(chan int)
	go fork(n-1, a)
	go fork(n-2, b)
	x := <-a
	y := <-b
	answer <- x + y
}

func filter(p int, in, out chan int) {
	for {
		n := <-in
		if n == 0 {
			out <- 0
			return
		}
		if n%p != 0 {
			out <- n
		}
	}
}

func sieve(most int) {
	in := make(chan int)
	go func(out chan int) {
		for n := 2; n < most; n++ {
			out <- n
		}
		out <- 0
	}(in)
	for found := 0; ; found++ {
		p := <-in
		if p == 0 {
			fmt.Print(found)
			return
		}
		out := make(chan int)
		go filter(p, in, out)
		in = out
	}
}

func main() {
	switch os.Args[1] {
	case "ring":
		rings([]int{number(2)}, number(3))
	case "rings":
		rings([]int{183, 124, 155}, number(2))
	case "clients":
		clients(number(2), number(3))
	case "forks":
		answer := make(chan int)
		go fork(number(2), answer)
		fmt.Print(<-answer)
	case "sieve":
		sieve(number(2))
	}
}
