(define (domain stage)
  (:requirements :strips)
  (:predicates
    (f0)
    (f1)
    (f2)
    (f3)
    (f4)
    (f5)
    (f6)
    (f7)
  )
  (:action a0
   :parameters ()
   :precondition (and
    (f0)
   )
   :effect (and
    (f1)
   )
  )
  (:action a1
   :parameters ()
   :precondition (and
    (f1)
   )
   :effect (and
    (f2)
    (f6)
   )
  )
  (:action a2
   :parameters ()
   :precondition (and
    (f1)
   )
   :effect (and
    (f4)
   )
  )
  (:action a3
   :parameters ()
   :precondition (and
    (f1)
    (f2)
    (f4)
   )
   :effect (and
    (f3)
    (f5)
    (not (f2))
   )
  )
  (:action a4
   :parameters ()
   :precondition (and
    (f1)
    (f3)
    (f4)
   )
   :effect (and
    (f2)
    (f5)
    (not (f3))
   )
  )
  (:action a5
   :parameters ()
   :precondition (and
    (f4)
    (f5)
    (f6)
   )
   :effect (and
    (not (f5))
   )
  )
  (:action a6
   :parameters ()
   :precondition (and
    (f6)
   )
   :effect (and
    (not (f0))
    (not (f4))
   )
  )
  (:action a7
   :parameters ()
   :precondition (and
    (f4)
    (f6)
   )
   :effect (and
    (f7)
    (not (f6))
   )
  )
  (:action a8
   :parameters ()
   :precondition (and
   )
   :effect (and
    (f0)
    (not (f1))
    (not (f2))
    (not (f3))
   )
  )
)
