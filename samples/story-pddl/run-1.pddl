(define (problem run)
  (:domain stage)
  (:init
    (f0)
  )
  (:goal (and
    (f0)
    (f7)
  ))
)
