// Nanoseconds for one rendezvous of two goroutines over unbuffered channels: a name and a number on each
// line. The loads are those of generate/src/procedures.rs: ping_pong and selecting.
package main

import (
	"fmt"
	"sort"
	"time"
)

const (
	samples = 101
	// Rendezvous in one sample, an even number.
	rendezvous = 20000
)

// Two goroutines send a number to and fro over one channel. Answers what lets them meet so often.
func pingPong() func(int) {
	c := make(chan int32)
	go func() {
		for {
			number := <-c
			c <- number
		}
	}()
	return func(meetings int) {
		number := int32(7)
		for i := 0; i < meetings/2; i++ {
			c <- number
			number = <-c
		}
	}
}

// One goroutine sends on two channels in turn, the other receives from whichever it can. Answers what
// lets them meet so often.
func selecting() func(int) {
	one, other := make(chan int32), make(chan int32)
	go func() {
		var sum int32
		for {
			select {
			case number := <-one:
				sum += number
			case number := <-other:
				sum -= number
			}
		}
	}()
	return func(meetings int) {
		for i := 0; i < meetings/2; i++ {
			one <- 7
			other <- 7
		}
	}
}

// The median, over the samples, of the nanoseconds for one meeting.
func measure(meet func(int)) float64 {
	meet(rendezvous)
	times := make([]float64, samples)
	for i := range times {
		start := time.Now()
		meet(rendezvous)
		times[i] = float64(time.Since(start).Nanoseconds()) / rendezvous
	}
	sort.Float64s(times)
	return times[samples/2]
}

func main() {
	fmt.Printf("ping-pong %.1f\n", measure(pingPong()))
	fmt.Printf("select %.1f\n", measure(selecting()))
}
